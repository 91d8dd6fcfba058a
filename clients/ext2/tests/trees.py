"""Trees of files as an ext2 file system has to have them, and commands of e2tx that change them."""
import random

# of a hundred files: how many are of any length up to LONGEST blocks, which no one transaction takes
LONG, LONGEST = 6, 160
MODES = (0o600, 0o644, 0o755, 0o4755, 0o1777)
FRESH = {'/lost+found': ('40700', '')}


def is_dir(tree, path):
    return tree[path][0].startswith('40')


def below(tree, path):
    return [other for other in tree if other.startswith(path + '/')]


def changed(tree, command):
    """The tree that a command makes of another, where it is done."""
    tree, (word, path, *rest) = dict(tree), command
    if word == 'mkdir':
        tree[path] = ('40755', '')
    elif word == 'put':
        tree[path] = (tree[path][0] if path in tree else '100644', rest[0])
    elif word == 'rm':
        del tree[path]
    elif word == 'chmod':
        mode, content = tree[path]
        tree[path] = ('%o' % (int(mode, 8) & ~0o7777 | int(rest[0], 8)), content)
    elif word == 'mv':
        for each in [path, *below(tree, path)]:
            tree[rest[0] + each[len(path):]] = tree.pop(each)
    return tree


def is_kept(tree, command):
    """Whether a command is done on a tree and leaves it as it is."""
    if command == ('sync',):
        return True
    return command[0] in ('put', 'chmod') and command[1] in tree and changed(tree, command) == tree


def read(text):
    """The tree that `e2tx tree` has printed, with its answer behind it; None where it is none."""
    lines = text.split('\n')
    if lines[-2:] != ['ok', '']:
        return None
    parts = [line.split(' ', 2) for line in lines[:-2]]
    return {path: (mode, content) for path, mode, content in parts}


class Chooser:
    """Chooses commands that succeed on a tree, of files of a file system with so many bytes."""

    def __init__(self, seed, size, room):
        self.dice, self.size, self.room = random.Random(seed), size, room

    def length(self):
        dice, size = self.dice, self.size
        most = dice.choices((400, 6000, 20 * size, LONGEST * size), (60, 34 - LONG, 6, LONG))[0]
        return dice.randint(0, most)

    def text(self, length):
        """So many letters; those of a long one repeat themselves, but never within a block."""
        return (f'{self.dice.getrandbits(4 * 997):0997x}' * (length // 997 + 1))[:length]

    def fresh(self, dirs):
        parents = [''] + [path for path in dirs if path.count('/') < 4]
        name = f'{self.dice.getrandbits(96):024x}'[:self.dice.randint(2, 24)]
        return f'{self.dice.choice(parents)}/{name}'

    def command(self, tree):
        while True:
            found = self.one(tree, [path for path in tree if is_dir(tree, path) and path != '/lost+found'])
            if found:
                return found

    def one(self, tree, dirs):
        """A command, or None where the dice have thrown none that succeeds."""
        dice, files, new = self.dice, [path for path in tree if not is_dir(tree, path)], self.fresh(dirs)
        word = dice.choices(('mkdir', 'put', 'over', 'rm', 'rmdir', 'mv', 'onto', 'mvdir', 'chmod'), (8, 30, 8, 22, 4, 10, 3, 4, 11))[0]
        if new in tree or (word in ('mkdir', 'put') and len(tree) > 300):
            return None
        left = self.room - sum(len(content) + self.size for _, content in tree.values())
        if word == 'put' or (word == 'over' and files):
            length = self.length()
            return ('put', new if word == 'put' else dice.choice(files), self.text(length)) if length + 2 * self.size < left else None
        if word == 'mkdir':
            return (word, new) if len(dirs) < 40 and left > 4 * self.size else None
        if word in ('rmdir', 'mvdir') and dirs:
            return self.of_dir(tree, word, dice.choice(dirs), new)
        if word not in ('rm', 'mv', 'onto', 'chmod') or not files:
            return None
        path, other = dice.choice(files), dice.choice(files)
        if word == 'onto':
            return ('mv', path, other) if other != path else None
        return {'rm': ('rm', path), 'mv': ('mv', path, new), 'chmod': ('chmod', path, f'{dice.choice(MODES):04o}')}[word]

    @staticmethod
    def of_dir(tree, word, path, new):
        names = below(tree, path)
        if word == 'rmdir':
            return None if names else ('rm', path)
        is_deep = any(name.count('/') > 6 for name in names)
        return None if is_deep or (new + '/').startswith(path + '/') else ('mv', path, new)

    def stream(self, tree, count):
        """So many commands, with a `sync` now and then, and the tree before each, and at the end."""
        commands, states = [], [tree]
        for _ in range(count):
            commands.append(('sync',) if self.dice.random() < 0.05 else self.command(states[-1]))
            states.append(states[-1] if commands[-1] == ('sync',) else changed(states[-1], commands[-1]))
        return commands, states


def spelled(commands):
    return ''.join(' '.join(command) + '\n' for command in commands)
