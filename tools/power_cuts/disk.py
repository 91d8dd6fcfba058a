"""What a disk may hold after a power cut: files made from a record of calls, up to any point of it.

What was synced is there, once the sync has returned. Of what was not, a choice is made by dice: of a home file sector by sector, as it was or as it was written; of a
log as one of these ways says. A file that was made may have no name until its folder is synced.
"""

# a beginning of what was done to a log since its last sync, in its order, the last write cut at any byte
BEGINNING = 'beginning'
# the length as it was to be, and in it: zeros behind some byte; some sectors zeros; some writes, and zeros for the others
ZEROS, SECTORS, WRITES = 'zeros', 'sectors', 'writes'
# the same, with bytes in place of zeros that the file had before it was emptied, there or elsewhere
OLD = 'old'
WAYS = (BEGINNING, ZEROS, SECTORS, WRITES, OLD)
UNITS = (128, 512, 4096)
# the bytes of the end mark of a text: the worst that can be is that these are there, whatever else is lost
END_MARK = 16


def laid(content, at, data):
    """Lays bytes over a content at a place; what lies between is zeros."""
    if len(content) < at:
        content.extend(bytes(at - len(content)))
    content[at:at + len(data)] = data


def applied(content, change):
    """Makes a change of a content: a write or a cut."""
    if change.kind == 'w':
        laid(content, change.offset, change.data)
    elif len(content) > change.offset:
        del content[change.offset:]
    else:
        content.extend(bytes(change.offset - len(content)))


class File:
    """A file: what is safe of it, what was done since in its order, and what it had before it was emptied."""

    def __init__(self, content=b''):
        self.safe, self.pending, self.count, self.former = bytearray(content), [], 0, bytearray()

    def change(self, event):
        if event.kind == 't':
            laid(self.former, 0, self.whole())
        self.pending.append(event)
        self.count += 1

    def whole(self):
        """What the program sees of it."""
        content = bytearray(self.safe)
        for change in self.pending:
            applied(content, change)
        return content

    def make_safe(self, count):
        """A sync has returned that began behind so many changes."""
        done = max(0, count - (self.count - len(self.pending)))
        for change in self.pending[:done]:
            applied(self.safe, change)
        del self.pending[:done]


def left_of_home(file, dice):
    """What may be left of a home file: each sector that was written since the last sync as it was, or as one of the writes made it."""
    content, unit, chance = bytearray(file.safe), dice.choice((*UNITS, 1 << 30)), dice.choice((0, 1, 0.5, dice.random()))
    for change in file.pending:
        if change.kind == 't':
            if dice.random() < chance:
                applied(content, change)
            continue
        end = change.offset + len(change.data)
        for first in range(change.offset - change.offset % unit, end, unit):
            if dice.random() < chance:
                begin = max(first, change.offset)
                laid(content, begin, change.data[begin - change.offset:min(first + unit, end) - change.offset])
    return bytes(content)


def beginning(file, dice):
    """A beginning of what was done since the last sync."""
    content, count = bytearray(file.safe), dice.randint(0, len(file.pending))
    for change in file.pending[:count]:
        applied(content, change)
    if count < len(file.pending) and file.pending[count].kind == 'w':
        change = file.pending[count]
        laid(content, change.offset, change.data[:dice.randint(0, len(change.data))])
    return bytes(content)


def lost(file, shift, begin, end):
    """What stands in the place of bytes that are lost: zeros, or what the file had before it was emptied, so many bytes further on."""
    found = b'' if shift is None else file.former[begin + shift:end + shift]
    return bytes(found).ljust(end - begin, b'\0')


def torn(file, dice, way):
    """What may be left of a log as these ways say. An emptying that was not synced was made, or was not."""
    content, changes = bytearray(file.safe), list(file.pending)
    while changes and changes[0].kind == 't':
        change = changes.pop(0)
        if dice.random() < 0.5:
            applied(content, change)
    kept = dice.choice((ZEROS, SECTORS, WRITES)) if way == OLD else way
    unit, chance = dice.choice(UNITS[1:]), dice.choice((0.5, 0.9, dice.random()))
    shift = dice.choice((0, 0, 4096 * dice.randint(0, 16))) if way == OLD else None
    total = sum(len(change.data) for change in changes)
    left = dice.randint(0, total)
    for change in changes:
        if change.kind == 't':
            applied(content, change)
            continue
        end, at = change.offset + len(change.data), change.offset
        is_kept = dice.random() < chance
        while at < end:
            stop = min(at - at % unit + unit, end)
            if kept == SECTORS:
                is_kept = dice.random() < chance
            elif kept == ZEROS:
                is_kept, stop = left > 0, min(stop, at + left) if left > 0 else stop
                left -= stop - at
            laid(content, at, change.data[at - change.offset:stop - change.offset] if is_kept else lost(file, shift, at, stop))
            at = stop
    if changes and changes[-1].kind == 'w' and dice.random() < 0.4:
        mark = changes[-1].data[-END_MARK:]
        laid(content, changes[-1].offset + len(changes[-1].data) - len(mark), mark)
    elif dice.random() < 0.15 and len(content) > len(file.safe):
        del content[dice.randint(len(file.safe), len(content)):]
    return bytes(content)


def left_of_log(file, dice, way):
    return beginning(file, dice) if way == BEGINNING else torn(file, dice, way)


class Disk:
    """The files of a folder, as the events of a record leave them one after another."""

    def __init__(self, base):
        self.files, self.names, self.renames = {name: File(content) for name, content in base.items()}, set(base), []
        self.known, self.begun = {}, {}

    def file(self, event):
        """The file of an event: one that was there before the record is known by its name."""
        if event.file not in self.known:
            self.known[event.file] = event.name
            self.files.setdefault(event.name, File())
        return self.files[self.known[event.file]]

    def step(self, event):
        if event.kind in 'wt':
            self.file(event).change(event)
        elif event.kind == 'm':
            self.known[event.file] = event.name
            self.files[event.name] = File()
            self.renames.append((event.name, True))
        elif event.kind == 'u':
            self.renames.append((event.name, False))
        elif event.kind == 'r':
            raise ValueError('a file is renamed: what a power cut leaves then is not made')
        elif event.kind == 'b':
            self.begun[event.thread, event.file] = self.renames[:] if event.name == '' else self.file(event).count
        elif event.kind == 'e':
            self.end_sync(event, self.begun.pop((event.thread, event.file)))

    def end_sync(self, event, begun):
        if event.offset != 0:
            return
        if event.name != '':
            self.file(event).make_safe(begun)
            return
        for name, is_there in begun:
            (self.names.add if is_there else self.names.discard)(name)
            self.renames.remove((name, is_there))

    def is_pending(self, name):
        return name in self.files and bool(self.files[name].pending)

    def left_names(self, dice):
        """The names that may be left: each as its changes since its folder's sync have made it, up to one of them."""
        names = set(self.names)
        for name in sorted({name for name, _ in self.renames}):
            changes = [is_there for changed, is_there in self.renames if changed == name]
            for is_there in changes[:dice.randint(0, len(changes))]:
                (names.add if is_there else names.discard)(name)
        return names

    def left(self, dice, ways):
        """What a power cut may leave now: of each name its content, of a log by its way in `ways`."""
        names = self.left_names(dice)
        return {name: left_of_log(file, dice, ways[name]) if name in ways else left_of_home(file, dice) for name, file in sorted(self.files.items()) if name in names}


def disks(base, events):
    """The disk behind each event, with its number. It is one disk, which goes on."""
    disk = Disk(base)
    for number, event in enumerate(events):
        for part in event:
            disk.step(part)
        yield number, disk
