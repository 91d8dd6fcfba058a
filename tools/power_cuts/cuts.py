"""Power cuts of a record: files are made as a disk may hold them then, recovered, and compared with what was committed."""
import collections
import os
import random
import subprocess
import threading
from typing import NamedTuple

import plain_logs
from plain_logs import whole_texts
from power_cuts import recording
from power_cuts.disk import BEGINNING, SECTORS, WAYS, WRITES, ZEROS, disks
from power_cuts.history import History

RIGHT, REFUSED, WRONG = 'right', 'refused', 'wrong'
SECONDS = 60
# what is right or refused with a barrier
COVERED_BY_BARRIER = (ZEROS, SECTORS, WRITES)
# of a hundred cuts: how many are near crucial events, or where a fault was planted near those, and from which on they are anywhere; between, something was not synced
NEAR_CUTS, PLANTED_CUTS, ANYWHERE = 35, 70, 80
# how far from it is near, the nearest the more often
NEAR = (0, 0, 0, 0, 1, 1, 1, -1, -1, -1, 2, -2, 3, -3, 5, -5)
NEAR_PLANTED = (0, 0, 0, 1, 1, 2, -1)


class Place(NamedTuple):
    """A volume of a record: the names of its files, its slot and measures, and what was committed to it."""
    home: str
    log: str
    slot: int
    blocks: int
    size: int
    histories: list

    def is_log(self, name):
        """Whether a name is of the log: of its file, or of another that is named after it."""
        return name == self.log or name.startswith(self.log + '.')


class Record(NamedTuple):
    """What was recorded of a run: what its files had before, each event as a list of one, or of none or more where a fault was planted, and its volumes."""
    name: str
    base: dict
    events: list
    places: list
    has_barrier: bool = False
    # whether its logs have seals, so that nothing which a power cut leaves behind the synced texts is taken for one
    has_seals: bool = False
    # a daemon that recovers the files by itself, now and then
    daemon: str = ''
    # the events at which a fault was planted, where it shows near them alone
    planted: list = []
    # whether logs are given to the program without their seals, as a reader would have them that looks at none: a fault that is planted
    is_unsealed: bool = False


class Told(NamedTuple):
    """What came of one power cut: its verdict, why, and what the home devices have then by their names."""
    verdict: str
    why: str
    homes: dict


def contents(home, size, blocks):
    """What a home device has in some blocks."""
    return {block: home[block * size:(block + 1) * size].ljust(size, b'\0') for block in blocks}


def is_log(record, name):
    return any(place.is_log(name) for place in record.places)


def ways_of(record):
    """The ways a log may be left of which something is promised, and the others."""
    covered = WAYS if record.has_seals else (BEGINNING, *COVERED_BY_BARRIER) if record.has_barrier else (BEGINNING,)
    return covered, tuple(way for way in WAYS if way not in covered)


def is_promised(record, way):
    return way in ways_of(record)[0]


def is_met(record, way, verdict, demands_all):
    """Whether a verdict is one that is promised, or where all is demanded the right one. With a barrier a log whose end is no beginning may be refused, one with seals
    never."""
    if verdict == RIGHT:
        return True
    if demands_all or way == BEGINNING or record.has_seals:
        return False
    return verdict == REFUSED or not is_promised(record, way)


def write(path, content):
    with open(path, 'wb') as file:
        file.write(content)


def read(path):
    with open(path, 'rb') as file:
        return file.read()


def unsealed(record, image):
    """The files of logs as they are for a reader that looks at no seal: all texts that obey the rules, the older ones first, and what stands behind them."""
    left = dict(image)
    for place in record.places:
        files = [content for name, content in image.items() if place.is_log(name) and plain_logs.read_header(content)]
        if files:
            files.sort(key=lambda content: plain_logs.read_header(content).generation)
            left.pop(place.log + '.1', None)
            left[place.log] = b''.join(map(plain_logs.without_seals, files))
    return left


class Cutter:
    """Makes power cuts of records, in a folder, and recovers by a program."""

    def __init__(self, program, folder):
        self.program, self.folder = program, os.path.join(folder, 'cut')
        os.makedirs(self.folder, exist_ok=True)

    def path(self, name):
        return os.path.join(self.folder, name)

    def put(self, image):
        for name in os.listdir(self.folder):
            if name not in image:
                os.unlink(self.path(name))
        for name, content in image.items():
            write(self.path(name), content)

    def run(self, *words):
        try:
            ran = subprocess.run([self.program, *words], stdin=subprocess.DEVNULL, stdout=subprocess.PIPE, stderr=subprocess.PIPE, timeout=SECONDS)
        except subprocess.TimeoutExpired:
            return None, '', 'it does not end'
        return ran.returncode, ran.stdout.decode(errors='replace'), ran.stderr.decode(errors='replace')

    # ---- what is recovered, by the one way or the other

    def by_recover(self, place, image, is_cut):
        """Recovers one volume: its verdict, and why."""
        home, log = self.path(place.home), self.path(place.log)
        status, out, err = self.run('recover', home, log, *['--cut'] * is_cut)
        if status == 0:
            left = {name: read(self.path(name)) for name in image if place.is_log(name)}
            wanted = {name: b'' if is_cut else image[name] for name in left}
            return (RIGHT, '') if left == wanted else (WRONG, f'the log has {sum(map(len, left.values()))} bytes then')
        if status != 3 or not out.startswith('fault '):
            return WRONG, f'status {status}, {out!r:.100}, {err!r:.200}'
        if read(home) != image[place.home] or read(log) != image[place.log]:
            return WRONG, f'{out.strip()}, and its files are not as they were'
        return REFUSED, out.strip()

    def by_serve(self, record):
        """Recovers all volumes by a service that ends at once."""
        words = [f'{place.slot}:65536:{place.blocks}:{self.path(place.home)}:{self.path(place.log)}:{place.size}' for place in record.places]
        status, out, err = self.run('serve', '--recover', '--until-stdin-ends', '--port', '0', '--workers', '1', '--sessions', '1', *words)
        return (RIGHT, '') if status == 0 else (WRONG, f'serve --recover: status {status}, {out!r:.100}, {err!r:.300}')

    def mended(self, place, disk, image, told):
        """Of a log that is refused: where its fault stands behind what was synced, its whole texts are laid, as the page says that it is mended."""
        log, file = image[place.log], disk.files[place.log]
        safe = 0 if any(change.kind == 't' for change in file.pending) else len(file.safe)
        if int(told.split(' ')[1]) < safe:
            return WRONG, f'{told}, in the {safe} bytes that were synced'
        write(self.path(place.log), log[:whole_texts(log)])
        status, out, err = self.run('recover', self.path(place.home), self.path(place.log))
        return (REFUSED, told) if status == 0 else (WRONG, f'{told}; cut to its whole texts: status {status}, {out!r:.100}, {err!r:.200}')

    def judged(self, place, disk, image, event, is_cut):
        """Recovers one volume and compares it: its verdict, and why."""
        verdict, told = self.by_recover(place, image, is_cut)
        if verdict == REFUSED:
            verdict, told = self.mended(place, disk, image, told)
        return (verdict, told) if verdict == WRONG else self.compared(place, event, verdict, told)

    def compared(self, place, event, verdict, told):
        """The verdict where the home device has what it may have, else that it is wrong; and why."""
        home = read(self.path(place.home))
        for history in place.histories:
            number, why = history.found(home, event)
            if number is None:
                return WRONG, f'{told}: {why}'.lstrip(': ')
        return verdict, told

    def has_texts(self, place):
        """Whether a text stands in a file of a log: one that was recovered has none, and may have a header."""
        contents = [read(self.path(name)) for name in os.listdir(self.folder) if place.is_log(name)]
        files = [(content, plain_logs.read_sealed(content)) for content in contents]
        return any(it.texts if it else content and not plain_logs.read_header(content) for content, it in files)

    def by_daemon(self, record, disk, image, event):
        """Has a daemon recover its files, and ends it by SIGKILL."""
        place, = record.places
        words = [record.daemon, self.path(place.home), self.path(place.log), '0']
        daemon = subprocess.Popen(words, stdin=subprocess.DEVNULL, stdout=subprocess.PIPE, stderr=subprocess.PIPE)
        clock = threading.Timer(SECONDS, daemon.kill)
        clock.start()
        line = daemon.stdout.readline()
        daemon.kill()
        _, err = daemon.communicate()
        clock.cancel()
        if line.startswith(b'recovered '):
            return (WRONG, 'the daemon leaves its log') if self.has_texts(place) else self.compared(place, event, RIGHT, '')
        return self.judged(place, disk, image, event, False) if b'is broken at byte' in err else (WRONG, f'the daemon: {err!r:.200}')

    # ---- cuts

    def way_back(self, record, image, way, dice):
        """How the volumes are recovered. Files without a name are for a service to make anew."""
        if not all(name in image for place in record.places for name in (place.home, place.log)):
            return 'serve --recover'
        if record.daemon:
            return dice.choice(('recover',) * 12 + ('recover --cut',) * 6 + ('daemon',) * 2)
        return dice.choice(('recover',) * 12 + ('recover --cut',) * 7 + ('serve --recover' if way == BEGINNING or record.has_seals else 'recover',))

    def cut(self, record, disk, event, way, dice):
        """One power cut behind an event: the image that it leaves, how it is recovered, and what comes of it."""
        image = disk.left(dice, {name: way for name in disk.files if is_log(record, name)})
        if record.is_unsealed:
            image = unsealed(record, image)
        how = self.way_back(record, image, way, dice)
        self.put(image)
        if how == 'serve --recover':
            verdict, why = self.by_serve(record)
            told = [self.compared(place, event, verdict, why) for place in record.places] if verdict == RIGHT else [(verdict, why)]
        elif how == 'daemon':
            told = [self.by_daemon(record, disk, image, event)]
        else:
            told = [self.judged(place, disk, image, event, how == 'recover --cut') for place in record.places]
        worst = max(told, key=lambda one: (RIGHT, REFUSED, WRONG).index(one[0]))
        homes = {place.home: read(self.path(place.home)) for place in record.places} if worst[0] == RIGHT else {}
        return image, how, Told(*worst, homes)


# ---- which cuts

def crucial(record, part):
    """How crucial an event is: most so where a log is emptied, and less where one is written from its front, a file is made, or its name made safe."""
    if part.kind in 'tw' and part.offset == 0 and is_log(record, part.name):
        return 4 if part.kind == 't' else 1
    return int(part.kind == 'm' or part.kind in 'be' and part.name == '')


def interesting(record):
    """The events of a record behind which a log was not synced, those behind which any file was not, and those that are near a crucial one; where a fault was planted at
    some events, near those alone."""
    logs, files, near = [], [], []
    has_log = has_file = False
    for number, disk in disks(record.base, record.events):
        # what a program hears and says changes no file
        if any(part.kind not in 'hs' for part in record.events[number]):
            pending = [name for name in disk.files if disk.is_pending(name)]
            has_log, has_file = any(is_log(record, name) for name in pending), bool(pending)
        if has_log:
            logs.append(number)
        if has_file:
            files.append(number)
        weight = 0 if record.planted else max((crucial(record, part) for part in record.events[number]), default=0)
        near += weight * [number + far for far in NEAR]
    near += [number + far for number in record.planted for far in NEAR_PLANTED]
    return logs, files, [number for number in near if 0 <= number < len(record.events)]


def chosen(record, seed, numbers, only=None):
    """Of cuts by number: the event, the way the logs are left, or the only one that is asked for, and the dice for the rest. Each hangs on the record, the seed and
    its number alone."""
    logs, files, near = interesting(record)
    covered, others = ways_of(record)
    every = range(len(record.events))
    near_cuts = PLANTED_CUTS if record.planted else NEAR_CUTS
    cuts = []
    for number in numbers:
        dice = random.Random(f'{seed} {number}')
        way = dice.choice(covered) if not others or record.planted or dice.random() < 0.7 else dice.choice(others)
        way = only or way
        kind = dice.randrange(100)
        places = near if kind < near_cuts else files if kind < ANYWHERE else every
        if way != BEGINNING and logs and kind >= (near_cuts if record.planted else near_cuts // 3):
            places = logs
        cuts.append((dice.choice(places or every), number, way, dice))
    return sorted(cuts, key=lambda cut: cut[:2])


def made(cutter, record, seed, numbers, only=None):
    """Makes power cuts of a record, by number: of each the number, the event, the way, the image, how it was recovered, and what came of it."""
    cuts = collections.deque(chosen(record, seed, numbers, only))
    for event, disk in disks(record.base, record.events):
        while cuts and cuts[0][0] == event:
            _, number, way, dice = cuts.popleft()
            image, how, told = cutter.cut(record, disk, event, way, dice)
            yield number, event, way, image, how, told
        if not cuts:
            return


def recovery(program, recorder, work, place, image, home, is_cut):
    """The record of a recovery of one volume over what a power cut has left. It must come to what it came to before, whenever it is cut."""
    folder, record = os.path.join(work, 'recovery'), os.path.join(work, 'record')
    os.makedirs(folder, exist_ok=True)
    for name in os.listdir(folder):
        os.unlink(os.path.join(folder, name))
    base = {name: content for name, content in image.items() if name == place.home or place.is_log(name)}
    for name, content in base.items():
        write(os.path.join(folder, name), content)
    paths = [os.path.join(folder, place.home), os.path.join(folder, place.log)]
    process = recording.start(recorder, record, folder, [program, 'recover', *paths, *['--cut'] * is_cut], 0, stdin=subprocess.DEVNULL, stdout=subprocess.DEVNULL)
    process.wait(SECONDS)
    events = recording.read(record, folder)
    os.unlink(record)
    history = History(place.size, place.blocks, contents(home, place.size, range(place.blocks)))
    history.close()
    has_seals = any(plain_logs.read_header(content) for name, content in base.items() if place.is_log(name))
    return Record(f'recover{" --cut" * is_cut}', base, [[event] for event in events], [place._replace(histories=[history])], has_seals=has_seals)
