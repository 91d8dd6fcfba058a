"""Services of two volumes that clients change without an end, and what is there once they were ended by SIGKILL."""
import collections
import os
import random
import signal
import subprocess
import sys
import tempfile
import threading
import time

from plain_logs import BLOCK, CHUNK, HEADER, SEAL, read_header, read_two, replay, replay_two

sys.path.insert(0, os.path.join(os.path.dirname(os.path.abspath(__file__)), '..', 'examples'))
from client import Client, Refused, cost, spell  # noqa: E402

LIVES = 30
MORE_SECONDS = 60
# two volumes, and two clients of each
SLOTS, CLIENTS = 2, 2
# the bytes of a block of each volume, and how many blocks each change of a client writes; the word that names the first leaves its size out
SIZES, BLOCKS = (BLOCK, 512), (3, 9)
# the bytes of a log, and of one that soon has four times as many
LOG, SMALL_LOG = 262144, 65536
# the legs of a transaction of an anchor, and how often it asks for the next one: some times before each change, and many before it gives up. It asks at once where log space comes free, and
# the clients beside it a little later
LEGS, SOME, MANY, SHORT = 8, 25, 50_000, 0.0002
# how often a service under a load that never rests stands still to be looked at, and how often each log of it must take turns
LOOK_SECONDS, TURNS = 0.5, 4
# how many comparisons passed, and how many failed
tally = collections.Counter(passed=0, failed=0)
running = set()


def check(name, got, wanted):
    """Counts a comparison, and prints it where it fails."""
    if got == wanted:
        tally['passed'] += 1
    else:
        tally['failed'] += 1
        print(f'FAILED {name}: got {got!r:.300}, wanted {wanted!r:.300}')


def read(path):
    with open(path, 'rb') as file:
        return file.read()


def read_if(path):
    """What a file has that may be missing."""
    return read(path) if os.path.exists(path) else b''


def write(path, content):
    with open(path, 'wb') as file:
        file.write(content)


def recover(program, *words, **how):
    """Runs `xth recover`: its status, and what it printed."""
    ran = subprocess.run([program, 'recover', *words], stdin=subprocess.DEVNULL, capture_output=True, text=True, timeout=120, **how)
    return ran.returncode, ran.stdout, ran.stderr


# ---- services

class Service:
    """`xth serve` over two volumes in a folder."""

    def __init__(self, program, folder, sessions, *options, starts=True, log=LOG):
        self.folder = folder
        volumes = [f'{slot}:{log}:1024:{self.home(slot)}:{self.log(slot)}' + f':{SIZES[slot]}' * (slot > 0) for slot in range(SLOTS)]
        self.process = subprocess.Popen([program, 'serve', *options, '--port', '0', '--workers', '3', '--sessions', str(sessions), *volumes],
                                        stdin=subprocess.DEVNULL, stdout=subprocess.PIPE, stderr=subprocess.PIPE, text=True)
        running.add(self.process)
        self.port = int(self.process.stdout.readline().split()[1]) if starts else 0

    def home(self, slot):
        return os.path.join(self.folder, f'home{slot}')

    def log(self, slot):
        return os.path.join(self.folder, f'log{slot}')

    def logs(self, slot):
        """What the files of a log have."""
        return read(self.log(slot)), read_if(self.log(slot) + '.1')

    def replay(self, slot):
        """What recovery is to make of a home device, and what it is to print."""
        return replay_two(*self.logs(slot), read(self.home(slot)))

    def has_log(self, slot):
        return any(self.logs(slot))

    def kill(self):
        self.process.kill()
        return self.ended()

    def ended(self):
        """Waits for its end: its status, and what it said on standard error."""
        _, err = self.process.communicate(timeout=120)
        running.discard(self.process)
        return self.process.returncode, err

    def refused(self):
        """The same of one that is not to start: what it said on standard output too."""
        out, err = self.process.communicate(timeout=120)
        running.discard(self.process)
        return self.process.returncode, out, err


def content(client, mount, block):
    """What a client sees of a block."""
    trans = client.begin(mount, 32)
    client.again(f'{mount} read {trans} {block}')
    spelled = client.request(f'{mount} view {trans} {block}').split(' ')[1]
    client.request(f'{mount} cancel {trans}')
    seen = b''
    for part in spelled.split('.'):
        digits, star, count = part.partition('*')
        seen += bytes.fromhex(digits) * (int(count) if star else 1)
    return seen


# ---- lives

class Tenant:
    """A client that writes its number of changes into each of its blocks, in one transaction each time. What it asked for, and what it was told
    is done, it keeps."""

    def __init__(self, slot, place, writes_all=False):
        self.mount, self.size, self.dice = f'{slot}.1', SIZES[slot], random.Random(100 * slot + place)
        self.first, self.length = (0, self.size) if writes_all else (124, 8)
        self.blocks = [10 * place + k for k in range(BLOCKS[slot])]
        self.asked = self.done = 0

    def change(self, client):
        """One change, with the number of the next at byte 124 of each block, and zeros around it where the whole block is written."""
        number = (self.asked + 1).to_bytes(8, 'big')
        data = spell(number if self.length == 8 else bytes(124) + number + bytes(self.size - 132))
        chunks = (self.first + self.length - 1) // CHUNK - self.first // CHUNK + 1
        trans = client.begin(self.mount, 36 + len(self.blocks) * (16 + CHUNK * chunks))
        for block in self.blocks:
            client.again(f'{self.mount} read {trans} {block}')
            client.request(f'{self.mount} log {trans} {block} {self.first} {data}')
        self.asked += 1
        client.again(f'{self.mount} commit {trans}')

    def live(self, port):
        """Changes and forces, until the service is gone."""
        try:
            with Client(port) as client:
                while True:
                    for _ in range(self.dice.randrange(1, 6)):
                        self.change(client)
                    client.force(self.mount)
                    self.done = self.asked
                    if self.dice.random() < 0.3:
                        client.request(f'{self.mount} push')
        except (OSError, Refused):
            pass

    def found(self, home):
        """The numbers that a home device has in its blocks."""
        return {int.from_bytes(home[block * self.size + 124:][:8], 'big') for block in self.blocks}


def killed_now_and_then(dice, start):
    """Starts a process again and again, and ends each by SIGKILL after a moment."""
    for _ in range(dice.randrange(3)):
        process = start()
        time.sleep(dice.random() * 0.06)
        process.kill()
        process.communicate()


def recover_life(program, dice, folder, slot):
    """Recovers one volume by `recover`, which is ended now and then on its way, and compares what comes of it."""
    h, l = os.path.join(folder, f'home{slot}'), os.path.join(folder, f'log{slot}')
    wanted, lines = replay_two(read(l), read_if(l + '.1'), read(h))
    killed_now_and_then(dice, lambda: subprocess.Popen([program, 'recover', h, l], stdout=subprocess.DEVNULL))
    status, out, err = recover(program, h, l)
    check(f'recovery after a life: slot {slot}', (status, out, err, read(h) == wanted), (0, lines, '', True))
    killed_now_and_then(dice, lambda: subprocess.Popen([program, 'recover', '--cut', h, l], stdout=subprocess.DEVNULL))
    status, _, err = recover(program, '--cut', h, l)
    check(f'recovery with --cut after a life: slot {slot}', (status, err, read(h) == wanted, read(l), read_if(l + '.1')), (0, '', True, b'', b''))


def start_life(program, dice, folder, life):
    """The next life of a service, over what was recovered by the one way or the other: of those that are not recovered by the service itself some logs are cut, and some have a barrier."""
    options = ((), ('--cut-logs',), ('--cut-logs', '--barrier'))[life % 3]
    if life % 2:
        for slot in range(SLOTS):
            recover_life(program, dice, folder, slot)
        return Service(program, folder, 1000, *options, *['--recover'] * (life % 4 == 1), log=SMALL_LOG)
    left = lambda slot: [read_if(os.path.join(folder, name)) for name in (f'log{slot}', f'log{slot}.1', f'home{slot}')]
    wanted = [replay_two(*left(slot))[0] for slot in range(SLOTS)] if life else None
    killed_now_and_then(dice, lambda: Service(program, folder, 1000, '--recover', '--any-log', starts=False, log=SMALL_LOG).process)
    service = Service(program, folder, 1000, '--recover', *options, log=SMALL_LOG)
    if wanted:
        check(f'life {life}: what serve --recover made of home', [read(service.home(slot)) == wanted[slot] for slot in range(SLOTS)], [True] * SLOTS)
    return service


def lives(program):
    """So many lives of a service, each ended by SIGKILL under load: what was told done is there, whole, and nothing that nobody asked for."""
    dice = random.Random(4)
    tenants = [Tenant(slot, place, writes_all=place == 1) for slot in range(SLOTS) for place in range(CLIENTS)]
    with tempfile.TemporaryDirectory() as folder:
        for life in range(LIVES + 1):
            service = start_life(program, dice, folder, life)
            for tenant in tenants:
                found = tenant.found(read(service.home(int(tenant.mount[0]))).ljust(1024 * tenant.size, b'\0'))
                check(f'life {life}, {tenant.mount}: {found} is whole', len(found), 1)
                number = min(found)
                check(f'life {life}, {tenant.mount}: {tenant.done} is done, {number} there, {tenant.asked} asked', tenant.done <= number <= tenant.asked, True)
                with Client(service.port) as client:
                    seen = content(client, tenant.mount, tenant.blocks[0])[124:132]
                check(f'life {life}, {tenant.mount}: what a client sees', int.from_bytes(seen, 'big'), number)
                tenant.asked = tenant.done = number
            crew = [threading.Thread(target=tenant.live, args=(service.port,)) for tenant in tenants]
            for thread in crew:
                thread.start()
            time.sleep(0.05 + dice.random() * 0.5)
            service.kill()
            for thread in crew:
                thread.join()
    print(f'lives: {LIVES}, with {sum(tenant.asked for tenant in tenants)} changes')


def under_load(program, seconds):
    """A service under load for so long, and on a slow machine longer, until each log was cut: how long they grew, in sizes of the log, and how often
    they were cut."""
    tenants = [Tenant(slot, place, writes_all=True) for slot in range(SLOTS) for place in range(CLIENTS)]
    with tempfile.TemporaryDirectory() as folder:
        service = Service(program, folder, 1000, '--cut-logs', log=SMALL_LOG)
        crew = [threading.Thread(target=tenant.live, args=(service.port,)) for tenant in tenants]
        for thread in crew:
            thread.start()
        longest, before, cuts = [0] * SLOTS, [0] * SLOTS, [0] * SLOTS
        end = time.monotonic() + seconds
        while time.monotonic() < (end if all(cuts) else end + MORE_SECONDS):
            for slot in range(SLOTS):
                size = os.path.getsize(service.log(slot))
                longest[slot] = max(longest[slot], size)
                cuts[slot] += size < before[slot]
                before[slot] = size
            time.sleep(0.001)
        service.kill()
        for thread in crew:
            thread.join()
        for slot in range(SLOTS):
            check(f'a service under load: the log of slot {slot} has {longest[slot]} bytes', longest[slot] < 8 * SMALL_LOG, True)
            check(f'a service under load: slot {slot} was cut', cuts[slot] > 0, True)
            h, l = service.home(slot), service.log(slot)
            wanted, lines = replay(read(l), read(h))
            check(f'a service under load: recovery of slot {slot}', (recover(program, h, l), read(h) == wanted), ((0, lines, ''), True))
        for tenant in tenants:
            found = tenant.found(read(service.home(int(tenant.mount[0]))))
            check(f'a service under load: {tenant.mount}: {tenant.done} is done, {found} there', len(found) == 1 and tenant.done <= min(found) <= tenant.asked, True)
    changes = sum(tenant.asked for tenant in tenants)
    print(f'load: {seconds} seconds, {changes} changes, cuts seen {cuts}, longest log {[round(size / SMALL_LOG, 1) for size in longest]} sizes')


# ---- a load that never rests, over sealed logs

class Hasty(Client):
    """A client that asks again nearly at once, so that a volume gets no rest while it waits for it."""

    def again(self, line):
        while True:
            try:
                return self.request(line)
            except Refused as refused:
                if refused.errno not in ('EAGAIN', 'ENOMEM'):
                    raise
            time.sleep(5 * SHORT)


class Busy(Tenant):
    """A client that asks for no flush, and goes on with its next change before the last one is done."""

    def live(self, port):
        try:
            with Hasty(port) as client:
                while True:
                    self.change(client)
                    if client.again(f'{self.mount} force') == 'done':
                        self.done = self.asked
        except (OSError, Refused):
            pass


class Anchor:
    """A client that keeps its volume from resting. Of two blocks it holds one at any time that is on the log and not home: no flush writes a block that is held. It holds the other one
    before it lets go of that, so log space comes free. What it needs of that for its next changes it has before, by two transactions of several legs."""

    def __init__(self, slot):
        self.mount, self.blocks, self.number = f'{slot}.1', (1000, 1001), 0

    def begun(self, client, tries):
        """A transaction for some changes; None where so many tries find no log space."""
        for _ in range(tries):
            reply = client.ask(f'{self.mount} alloc {cost(0, 8)} {LEGS} perm')
            if reply[0] == 't':
                return reply
            if reply != 'EAGAIN':
                raise Refused(reply)
            time.sleep(SHORT)
        return None

    def change(self, client, trans, is_last):
        """Changes the one block, has it safe and held, and lets go of the other."""
        block, other = self.blocks[self.number % 2], self.blocks[1 - self.number % 2]
        client.again(f'{self.mount} read {trans} {block}')
        client.request(f'{self.mount} log {trans} {block} 0 {spell((self.number + 1).to_bytes(8, "big"))}')
        client.request(f'{self.mount} hold {trans} {block}')
        client.again(f'{self.mount} {"commit" if is_last else "roll"} {trans}')
        while client.again(f'{self.mount} force') != 'done':
            time.sleep(SHORT)
        if self.number > 0:
            client.request(f'{self.mount} drop {other}')
        self.number += 1

    def live(self, port):
        try:
            with Hasty(port) as client:
                trans, spare = self.begun(client, MANY), None
                while trans:
                    for leg in range(LEGS):
                        spare = spare or self.begun(client, SOME)
                        self.change(client, trans, leg == LEGS - 1)
                    trans, spare = spare or self.begun(client, MANY), None
        except (OSError, Refused):
            pass


def longest_file(texts):
    """The most bytes that a file of a sealed log with so many texts may have: those of the log in texts, a seal for each, and the header."""
    return SMALL_LOG + HEADER + SEAL * texts


# no file of a log has more texts than changes of an anchor would make, of which each may be alone in one
LONGEST_FILE = longest_file(SMALL_LOG // cost(0, 8))


class Watcher(threading.Thread):
    """Looks at the lengths of the files of a service's logs all the while: the longest that each had, and how often it was seen to become shorter."""

    def __init__(self, service):
        super().__init__(daemon=True)
        self.paths = [[service.log(slot), service.log(slot) + '.1'] for slot in range(SLOTS)]
        self.longest, self.before, self.turns = ([[0, 0] for _ in range(SLOTS)] for _ in range(3))
        self.looks, self.ends = 0, threading.Event()

    def run(self):
        while not self.ends.wait(0.001):
            self.looks += 1
            for slot, paths in enumerate(self.paths):
                for number, path in enumerate(paths):
                    size = os.path.getsize(path)
                    self.longest[slot][number] = max(self.longest[slot][number], size)
                    self.turns[slot][number] += size < self.before[slot][number]
                    self.before[slot][number] = size

    def end(self):
        self.ends.set()
        self.join()

    def has_turned(self):
        """Whether each log has taken turns enough."""
        return all(sum(turns) >= TURNS for turns in self.turns)


def standing_still(service, tenants):
    """What a service has that stands still for a moment: of each volume its home file and the two of its log, and of each tenant what it was told is done, and what it asked for."""
    done = [tenant.done for tenant in tenants]
    service.process.send_signal(signal.SIGSTOP)
    # its threads have stopped then, or it has ended
    os.waitid(os.P_PID, service.process.pid, os.WSTOPPED | os.WEXITED | os.WNOWAIT)
    try:
        files = [(read(service.home(slot)), *service.logs(slot)) for slot in range(SLOTS)]
        return files, list(zip(tenants, done, [tenant.asked for tenant in tenants]))
    finally:
        service.process.send_signal(signal.SIGCONT)


def recovered(program, folder, slot, files, name):
    """Recovers a volume of which this was left, and compares with a plain reading: what its home file has then."""
    h, l = os.path.join(folder, f'home{slot}'), os.path.join(folder, f'log{slot}')
    for path, content_ in zip((h, l, l + '.1'), files):
        write(path, content_)
    wanted, lines = replay_two(*files[1:], files[0])
    check(f'{name}: recovery of slot {slot}', (recover(program, h, l), read(h) == wanted, (read(l), read(l + '.1')) == files[1:]), ((0, lines, ''), True, True))
    return wanted


def cut_anywhere(dice, files):
    """The same files, of which the newer one of the log is cut at any byte."""
    home, *logs = files
    newer = max((0, 1), key=lambda number: read_header(logs[number]).generation if read_header(logs[number]) else 0)
    logs[newer] = logs[newer][:dice.randint(0, len(logs[newer]))]
    return home, *logs


def has_changes(found, done, asked):
    """Whether a home device has all changes up to one, of those that may be there."""
    return len(found) == 1 and done <= min(found) <= asked


def looked_at(program, dice, folder, service, tenants):
    """One look at a service under load: each file of a log has at most the texts that it may have, something is not home, and what a kill or a cut would leave now is recovered."""
    left, told = standing_still(service, tenants)
    for slot, files in enumerate(left):
        read_files = read_two(*files[1:])
        lengths = [it.end - HEADER - SEAL * len(it.texts) for it in read_files]
        check(f'a look: slot {slot}: texts of {lengths} bytes', all(length <= SMALL_LOG for length in lengths), True)
        # behind the last seal there may be a text that is being written, with its seal
        most = longest_file(1 + max((len(it.texts) for it in read_files), default=0))
        check(f'a look: slot {slot}: files of {[len(file) for file in files[1:]]} bytes, {most} at most', all(len(file) <= most for file in files[1:]), True)
        home = recovered(program, folder, slot, files, 'a look')
        check(f'a look: slot {slot} rests', home == files[0], False)
        for tenant, done, asked in told:
            if tenant.mount == f'{slot}.1':
                found = tenant.found(home.ljust(1024 * tenant.size, b'\0'))
                check(f'a look: {tenant.mount}: {done} is done, {found} there, {asked} asked', len(found) == 1 and done <= min(found) <= asked, True)
        recovered(program, folder, slot, cut_anywhere(dice, files), 'a look, cut')


def under_sealed_load(program, seconds):
    """A service of sealed logs under a load that never rests for so long, and on a slow machine longer, until each log took some turns: no file of a log may ever have more than it
    may."""
    dice, looks = random.Random(6), 0
    tenants = [Busy(slot, place, writes_all=True) for slot in range(SLOTS) for place in range(CLIENTS)]
    anchors = [Anchor(slot) for slot in range(SLOTS)]
    with tempfile.TemporaryDirectory() as folder, tempfile.TemporaryDirectory() as other:
        service = Service(program, folder, 1000, '--recover', log=SMALL_LOG)
        watcher, crew = Watcher(service), [threading.Thread(target=client.live, args=(service.port,)) for client in (*anchors, *tenants)]
        for thread in (watcher, *crew):
            thread.start()
        end = time.monotonic() + seconds
        while time.monotonic() < (end if looks and watcher.has_turned() else end + MORE_SECONDS):
            time.sleep(LOOK_SECONDS)
            if all(anchor.number > 0 for anchor in anchors):
                looked_at(program, dice, other, service, tenants)
                looks += 1
        check('sealed logs under load: the clients that go on', [thread.is_alive() for thread in crew], [True] * len(crew))
        watcher.end()
        service.kill()
        for thread in crew:
            thread.join()
        for slot, files in enumerate(watcher.longest):
            check(f'sealed logs under load: slot {slot}: the longest files {files}, turns {watcher.turns[slot]}', max(files) <= LONGEST_FILE and sum(watcher.turns[slot]) >= TURNS, True)
            home = recovered(program, folder, slot, (read(service.home(slot)), *service.logs(slot)), 'sealed logs under load')
            for tenant in tenants[CLIENTS * slot:][:CLIENTS]:
                found = tenant.found(home)
                check(f'sealed logs under load: {tenant.mount}: {tenant.done} is done, {found} there', len(found) == 1 and tenant.done <= min(found) <= tenant.asked, True)
    changes = sum(tenant.asked for tenant in tenants) + sum(anchor.number for anchor in anchors)
    print(f'load of sealed logs: {seconds} seconds, {changes} changes, turns seen {watcher.turns}, longest files {watcher.longest} of {LONGEST_FILE} bytes at most in {watcher.looks} looks; '
          f'{looks} times stood still and recovered')
