"""Crashes of e2tx: each leaves files, of which it must make a clean file system again, with all that was promised."""
import os
import random
import shutil
import socket
import subprocess
import time
from typing import NamedTuple

import trees
from power_cuts import cuts, disk, recording

SECONDS = 120
# the options of e2tx that are tried by turns, and the bytes of a block: with logs of the least size files are emptied within each life
OPTIONS = (('-f',), (), ('-s', '65536'), ('-f', '-s', '65536'))
SIZES = (1024, 4096, 2048)
MEGABYTES = 2
# how many commands a life has, how many cuts are made of one record at most, and for how many lives a run of few cuts has some
COMMANDS, OF_ONE, LIVES = 200, 50, 24
# of how many cuts one is of a recovery too
RECOVERED = 7


class Fault(Exception):
    """Something is not as it must be."""


class Volume(NamedTuple):
    """A file system under test: a folder with its image and its log, the options of e2tx, and bytes of a block."""
    folder: str
    options: tuple
    size: int

    def path(self, name):
        return os.path.join(self.folder, name)

    def put(self, files):
        """Gives the folder these files alone."""
        shutil.rmtree(self.folder, ignore_errors=True)
        os.mkdir(self.folder)
        for name, content in files.items():
            cuts.write(self.path(name), content)

    def files(self):
        return {name: cuts.read(self.path(name)) for name in sorted(os.listdir(self.folder))}

    def words(self, program, *more):
        return [program, *self.options, self.path('image'), self.path('log'), *more]

    def kind(self):
        """How its kind is told."""
        return ' '.join(self.options) or 'no option'


def fresh_image(work, size, megabytes=MEGABYTES):
    """An empty file system."""
    path = os.path.join(work, 'fresh')
    with open(path, 'wb') as file:
        file.truncate(megabytes << 20)
    subprocess.run(['mke2fs', '-q', '-F', '-t', 'ext2', '-b', str(size), '-N', '512', path], check=True)
    content = cuts.read(path)
    os.unlink(path)
    return content


def e2fsck(image):
    """What e2fsck has to say of an image; nothing where it is clean."""
    ran = subprocess.run(['e2fsck', '-fn', image], capture_output=True, text=True, errors='replace')
    return '' if ran.returncode == 0 else ran.stdout[-600:] or f'status {ran.returncode}'


def recovered(volume, program):
    """The tree that e2tx finds, once it has recovered, over a clean file system."""
    ran = subprocess.run(volume.words(program, 'tree'), capture_output=True, text=True, errors='replace', timeout=SECONDS)
    if ran.returncode != 0:
        raise Fault(f'refused: {ran.stderr or ran.stdout[-200:]}')
    told = e2fsck(volume.path('image'))
    if told:
        raise Fault(f'unclean: {told}')
    if any(os.path.getsize(volume.path(name)) for name in ('log', 'log.1')):
        raise Fault('its log is not empty')
    return trees.read(ran.stdout)


def place_of(tree, states, first, last):
    """Which of some states a tree is."""
    for number in range(first, last + 1):
        if states[number] == tree:
            return number
    raise Fault(f'lost: it is none of the states from {first} to {last}')


def certain(volume, commands, answered):
    """How many commands must be there once so many were answered."""
    if '-f' in volume.options:
        return answered
    return max((number + 1 for number, command in enumerate(commands[:answered]) if command == ('sync',)), default=0)


def answers_to(text, words, work, env=None):
    """What a program answers to commands, line by line. They lie in files: a reader that is woken by each answer would take the most time beside other work."""
    commands, answers = os.path.join(work, 'in'), os.path.join(work, 'out')
    cuts.write(commands, text.encode())
    with open(commands) as given, open(answers, 'w') as out:
        subprocess.run(words, stdin=given, stdout=out, stderr=subprocess.DEVNULL, env=env, timeout=SECONDS)
    return cuts.read(answers).decode().split('\n')[:-1]


# ---- killed

def killed_life(volume, program, text, work, dice):
    """Runs commands until it is killed at a time at random: how many were answered."""
    commands, answers = os.path.join(work, 'in'), os.path.join(work, 'out')
    cuts.write(commands, text.encode())
    with open(commands) as given, open(answers, 'w') as out:
        process = subprocess.Popen(volume.words(program), stdin=given, stdout=out)
        wanted = 3 * dice.randint(1, COMMANDS - 10)
        while process.poll() is None and os.fstat(out.fileno()).st_size < wanted:
            time.sleep(0.0002)
        time.sleep(dice.random() * 0.002)
        process.kill()
        process.wait()
    said = cuts.read(answers).decode().split('\n')[:-1]
    if any(answer != 'ok' for answer in said):
        raise Fault(f'it answers {[answer for answer in said if answer != "ok"][:3]}')
    return len(said)


def killed_recovery(volume, program, dice):
    process = subprocess.Popen(volume.words(program, 'tree'), stdout=subprocess.DEVNULL)
    time.sleep(dice.random() * 0.006)
    process.kill()
    process.wait()


def kills(count, program, work, seed):
    """Kills it so often, one file system over all of them for each kind."""
    known = {}
    for number in range(count):
        kind = number % (len(OPTIONS) * len(SIZES))
        volume = Volume(os.path.join(work, f'killed{kind}'), OPTIONS[kind % len(OPTIONS)], SIZES[kind % len(SIZES)])
        if kind not in known:
            volume.put({'image': fresh_image(work, volume.size)})
        tree, chooser = known.get(kind, trees.FRESH), trees.Chooser(f'{seed} kill {number}', volume.size, MEGABYTES * 400_000)
        commands, states = chooser.stream(tree, COMMANDS)
        answered = killed_life(volume, program, trees.spelled(commands), work, chooser.dice)
        if chooser.dice.random() < 0.2:
            killed_recovery(volume, program, chooser.dice)
        found = place_of(recovered(volume, program), states, certain(volume, commands, answered), min(answered + 1, COMMANDS))
        known[kind] = states[found]
        yield volume.kind()


# ---- recorded, and its power cut

def listening():
    it = socket.create_server(('127.0.0.1', 0))
    said = socket.create_connection(it.getsockname())
    heard, _ = it.accept()
    it.close()
    return said, heard


def record_of(recorder, work, folder, words, text=b''):
    """The events of a program, with what it says on standard output; and its status."""
    record, (said, heard) = os.path.join(work, 'record'), listening()
    with said, heard:
        process = recording.start(recorder, record, folder, words, 0, stdin=subprocess.PIPE, stdout=said.fileno(), stderr=subprocess.PIPE)
        said.close()
        _, err = process.communicate(text, timeout=SECONDS)
    events = recording.read(record, folder)
    os.unlink(record)
    if process.returncode != 0:
        raise Fault(f'{os.path.basename(words[0])}: status {process.returncode}, {err.decode(errors="replace")[-300:]}')
    return events


def answers_of(events):
    """How many commands were answered at the front of each event, and at the end."""
    counts = [0]
    for event in events:
        counts.append(counts[-1] + (event.data.count(b'ok\n') if event.kind == 's' else 0))
        if event.kind == 's' and event.data.strip(b'ok\n'):
            raise Fault(f'it answers {event.data!r:.100}')
    return counts


class Recorded(NamedTuple):
    """A life that was recorded: what is cut, and which states are right. `promised` has for each event the first and last state that are right behind it."""
    record: cuts.Record
    states: list
    promised: list


def recorded(volume, base, events, states, promised):
    place = cuts.Place('image', 'log', 0, len(base['image']) // volume.size, volume.size, [])
    return Recorded(cuts.Record('e2tx', base, [[event] for event in events], [place], has_barrier=True), states, promised)


def life(volume, program, recorder, work, base, tree, seed):
    """A life of e2tx from files that have a tree, once they are recovered, on."""
    chooser = trees.Chooser(seed, volume.size, MEGABYTES * 400_000)
    commands, states = chooser.stream(tree, COMMANDS)
    volume.put(base)
    events = record_of(recorder, work, volume.folder, volume.words(program), trees.spelled(commands).encode())
    promised = [(certain(volume, commands, answered), min(answered + 1, COMMANDS)) for answered in answers_of(events)[1:]]
    return recorded(volume, base, events, states, promised)


def cut_recovery(volume, program, recorder, work, files, dice):
    """What a power cut leaves of a recovery of files."""
    volume.put(files)
    events = record_of(recorder, work, volume.folder, volume.words(program, 'sync'))
    behind = dice.randrange(len(events)) if events else 0
    for number, left in disk.disks(files, [[event] for event in events]):
        if number == behind:
            return left.left(dice, {name: dice.choice(disk.WAYS) for name in ('log', 'log.1')})
    return files


class Cut(NamedTuple):
    """A power cut: the event behind which it is, its kind, how it is told, and the files that it left."""
    event: int
    kind: str
    said: str
    files: dict


def files_of(made, volume, program, recorder, work, seed, numbers):
    """Cuts of a life."""
    chosen = cuts.chosen(made.record, seed, numbers)
    for event, left in disk.disks(made.record.base, made.record.events):
        while chosen and chosen[0][0] == event:
            _, number, way, dice = chosen.pop(0)
            files = left.left(dice, {name: way for name in ('log', 'log.1')})
            kind, said = way, f'cut {number}, {way}, behind event {event} of {len(made.record.events)}'
            if number % RECOVERED == 0:
                files = cut_recovery(volume, program, recorder, work, files, dice)
                kind, said = 'in a recovery', said + ', and of its recovery'
            yield Cut(event, kind, said, files)


def trees_of(made, volume, program, recorder, work, seed, numbers):
    """The same: each with the tree that is recovered."""
    for cut in files_of(made, volume, program, recorder, work, seed, numbers):
        volume.put(cut.files)
        try:
            yield cut, recovered(volume, program)
        except Fault as fault:
            raise Fault(f'{cut.said}: {fault}; its files are in {kept(cut.files)}') from None


def cuts_of(made, volume, program, recorder, work, seed, numbers):
    """The same: each with the state that it was recovered to."""
    for cut in files_of(made, volume, program, recorder, work, seed, numbers):
        volume.put(cut.files)
        try:
            found = place_of(recovered(volume, program), made.states, *made.promised[cut.event])
        except Fault as fault:
            raise Fault(f'{cut.said}: {fault}; its files are in {kept(cut.files)}') from None
        yield cut, found


def kept(files):
    """Where files are kept that were not recovered as they must be."""
    folder = os.path.join(os.environ.get('TMPDIR', '/tmp'), f'e2tx.{os.getpid()}.{int(time.time())}')
    Volume(folder, (), 0).put(files)
    return folder


def power_cuts(count, program, recorder, work, seed):
    """So many power cuts, of lives of each kind by turns; each second life goes on from what a cut has left."""
    done, lives, left, each = 0, 0, None, max(1, min(OF_ONE, count // LIVES))
    while done < count:
        kind = lives // 2
        volume = Volume(os.path.join(work, 'cut'), OPTIONS[kind % len(OPTIONS)], SIZES[kind % len(SIZES)])
        base, tree = left or ({'image': fresh_image(work, volume.size)}, trees.FRESH)
        made = life(volume, program, recorder, work, base, tree, f'{seed} life {lives}')
        lives_on, left, lives = left is None, None, lives + 1
        for cut, found in cuts_of(made, volume, program, recorder, work, seed, range(done, min(done + each, count))):
            if lives_on and 'log' in cut.files and 'log.1' in cut.files:
                left = cut.files, made.states[found]
            done += 1
            yield cut.kind


def old_headers(program, recorder, work, seed):
    """Power is lost where a file that was emptied gets its header: it may have the one that it had before."""
    volume = Volume(os.path.join(work, 'cut'), ('-f', '-s', '65536'), SIZES[0])
    base = {'image': fresh_image(work, volume.size)}
    made = life(volume, program, recorder, work, base, trees.FRESH, f'{seed} headers')
    for event, left in disk.disks(base, made.record.events):
        part, = made.record.events[event]
        is_header = part.kind == 'w' and part.offset == 0 and part.name in ('log', 'log.1')
        former = bytes(left.files[part.name].former[:len(part.data)]) if is_header else b''
        if former:
            files = left.left(random.Random(event), {name: disk.BEGINNING for name in ('log', 'log.1')})
            volume.put({**files, part.name: former})
            place_of(recovered(volume, program), made.states, *made.promised[event])
            yield part.name


# ---- devices that fail

def look_behind_error(number, commands, answers, answered, states):
    """Behind the first error only what changes nothing may be answered ok. An empty log needs no write to open the file system anew, which has then one of two
    trees: the change that failed may be there, where the log was just emptied of it."""
    standing = states[answered:answered + 2]
    for command, answer in list(zip(commands, answers))[answered:]:
        if answer == 'ok' and not any(trees.is_kept(tree, command) for tree in standing):
            raise Fault(f'life {number}: it answers ok to {command[:2]} behind an error')


def failing(count, program, library, work, seed):
    """So many lives in which from a random write or sync on all of them fail."""
    for number in range(count):
        volume = Volume(os.path.join(work, 'failing'), OPTIONS[number % len(OPTIONS)], SIZES[number % len(SIZES)])
        chooser = trees.Chooser(f'{seed} fail {number}', volume.size, MEGABYTES * 400_000)
        commands, states = chooser.stream(trees.FRESH, chooser.dice.randint(20, COMMANDS // 2))
        volume.put({'image': fresh_image(work, volume.size)})
        env = dict(os.environ, LD_PRELOAD=library, FAIL_OF=os.path.realpath(volume.folder), FAIL_FROM=str(chooser.dice.randint(0, 2 * len(commands))))
        answers = answers_to(trees.spelled(commands), volume.words(program), work, env)
        answered = next((place for place, answer in enumerate(answers) if answer != 'ok'), len(answers))
        if '-f' in volume.options:
            look_behind_error(number, commands, answers, answered, states)
        place_of(recovered(volume, program), states, certain(volume, commands, answered), min(answered + 1, len(commands)))
        yield volume.kind()
