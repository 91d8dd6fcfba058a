"""The load of a service: sessions of which each commit is known, on volumes with small logs."""
import os
import random
import subprocess
import sys
import threading
import time

from power_cuts import recording
from power_cuts.history import History

sys.path.insert(0, os.path.join(os.path.dirname(os.path.abspath(__file__)), '..', '..', 'examples'))
from client import Client, Refused, spell  # noqa: E402
from plain_logs import spell_text  # noqa: E402

LOG, BLOCKS = 65536, 96
SIZES = (4096, 512, 2048, 1024)
# how many blocks a session has to itself, and how many of them it changes at most in one transaction
OWN, MOST = 16, 4
# after how many transactions all sessions of a volume let it rest, so that its log can be emptied; and for how many seconds at most
REST_AFTER, REST = 25, 0.05
SECONDS = 120


def unspell(spelled):
    """The bytes that a reply spells."""
    content = b''
    for part in spelled.split('.'):
        digits, star, count = part.partition('*')
        content += b'' if digits == '-' else bytes.fromhex(digits) * (int(count) if star else 1)
    return content


class Volume:
    """A volume of a service: its files in a folder, and what is known of its blocks."""

    def __init__(self, slot, size, base=None):
        self.slot, self.size, self.base = slot, size, base or {}
        self.home, self.log = f'home{slot}', f'log{slot}'
        self.history = None

    def word(self, folder):
        return f'{self.slot}:{LOG}:{BLOCKS}:{folder}/{self.home}:{folder}/{self.log}:{self.size}'


class Session(threading.Thread):
    """A client that changes blocks of its own, forces now and then, and notes what it said and heard."""

    def __init__(self, port, volume, place, seed, transactions, rest, folder):
        super().__init__(daemon=True)
        self.port, self.volume, self.dice, self.transactions, self.rest = port, volume, random.Random(seed), transactions, rest
        self.mount, self.log_file = f'{volume.slot}.1', os.path.join(folder, volume.log)
        self.owned = random.Random(place).sample(range(BLOCKS // 4), OWN)
        self.owned = [4 * block + place for block in self.owned]
        self.contents = {block: volume.base.get(block, bytes(volume.size)) for block in self.owned}
        self.said, self.last, self.fault, self.leads = [], 0, None, place == 0

    # what is heard is kept with the line: `said` has pairs, of commits and forces with what they mean

    def ask(self, line, meaning=None):
        reply = self.client.ask(line)
        self.said.append((line, reply, meaning))
        return reply

    def insist(self, line, meaning=None):
        """Says a line until it is not refused for a while: the volume is asked to go on."""
        until = time.monotonic() + SECONDS
        while True:
            reply = self.ask(line, meaning)
            if reply not in ('EAGAIN', 'ENOMEM', 'ENOBUFS'):
                break
            self.ask(f'{self.mount} force')
            self.ask(f'{self.mount} push')
            if time.monotonic() > until:
                raise Refused(f'{line} is answered {reply} for {SECONDS} seconds')
            time.sleep(0.0005)
        if reply[0] == 'E' or reply == 'bad line':
            raise Refused(f'{line} is answered {reply}')
        return reply

    def data(self, length):
        """Bytes of any kind, also such as a log has: a text, and the end of one."""
        kind = self.dice.randrange(6)
        if kind == 0:
            return bytes(length)
        if kind == 1:
            return bytes([self.dice.randrange(256)]) * length
        if kind == 2:
            text = spell_text(self.dice.choice((1, self.last + 1, self.dice.randrange(1, 400))), {self.dice.choice(self.owned): {0: bytes([255]) * 128}}, self.volume.size)
            part = text[self.dice.choice((0, 0, len(text) - 16)):]
            return (part * (length // len(part) + 1))[:length]
        return self.dice.getrandbits(8 * length).to_bytes(length, 'big')

    def edited(self, trans, block, kind):
        """Changes a block that the transaction has: its content then."""
        size, old = self.volume.size, self.contents[block]
        if kind == 'cancel':
            self.insist(f'{self.mount} inval {trans} {block}')
            return None
        if kind == 'whole':
            new = self.data(size)
            self.insist(f'{self.mount} log {trans} {block} 0 {spell(new)}')
            return new
        for _ in range(self.dice.randint(1, 3)):
            first = self.dice.randrange(size)
            part = self.data(self.dice.randint(1, min(size - first, 300)))
            self.insist(f'{self.mount} log {trans} {block} {first} {spell(part)}')
            old = old[:first] + part + old[first + len(part):]
        return old

    def transaction(self):
        """One transaction over some blocks. All are had before one is changed, since it must not be cancelled then."""
        chosen = self.dice.sample(self.owned, self.dice.randint(1, MOST))
        trans = self.insist(f'{self.mount} alloc {36 + len(chosen) * (16 + self.volume.size)} 1 plain')
        kinds = {}
        for block in chosen:
            kind = self.dice.choice(('whole', 'whole', 'part', 'part', 'part', 'cancel') if self.dice.random() < 0.4 else ('whole', 'part'))
            kinds[block] = 'whole' if kind == 'part' and self.contents[block] is None else kind
            self.insist(f'{self.mount} {"read" if kinds[block] == "part" else "get"} {trans} {block}')
        for block in chosen:
            if kinds[block] == 'part' and self.dice.random() < 0.2:
                seen = unspell(self.insist(f'{self.mount} view {trans} {block}').split(' ')[1])
                if seen != self.contents[block]:
                    raise Refused(f'block {block} is seen with another content than was committed')
        edits = {block: self.edited(trans, block, kinds[block]) for block in chosen}
        number = self.insist(f'{self.mount} commit {trans}', ('commit', edits))
        self.last = max(self.last, int(number.split(' ')[0][1:]))
        self.contents.update(edits)

    def force(self):
        line = self.dice.choice((f'{self.mount} force', f'{self.mount} forceto c{self.last}'))
        while self.last > 0 and self.ask(line, ('force', self.last)) != 'done':
            time.sleep(0.0003)

    def let_rest(self):
        """Once each session has stopped, one has all written home, and waits a moment for the log to be emptied."""
        try:
            self.rest.wait(SECONDS)
            if self.leads:
                self.force()
                self.ask(f'{self.mount} push')
                until = time.monotonic() + REST
                while os.path.getsize(self.log_file) > 0 and time.monotonic() < until:
                    time.sleep(0.001)
            self.rest.wait(SECONDS)
        except threading.BrokenBarrierError:
            raise Refused('another session has ended') from None

    def run(self):
        try:
            with Client(self.port) as self.client:
                self.own_port = self.client.socket.getsockname()[1]
                for count in range(1, self.transactions + 1):
                    self.transaction()
                    chance = self.dice.random()
                    if chance < 0.3:
                        self.force()
                    elif chance < 0.45:
                        self.insist(f'{self.mount} push')
                    if count % REST_AFTER == 0:
                        self.let_rest()
        except (OSError, Refused, ValueError) as fault:
            self.fault = f'{type(fault).__name__}: {fault}'
            self.rest.abort()


def lines_at(events, kind):
    """Of each port, behind which event each line of its stream was whole, and the line."""
    lines, rest = {}, {}
    for number, event in enumerate(events):
        if event.kind == kind:
            *whole, rest[event.offset] = (rest.get(event.offset, b'') + event.data).split(b'\n')
            lines.setdefault(event.offset, []).extend((number, line.decode()) for line in whole)
    return lines


def placed(sessions, events):
    """Tells of each commit behind which event it was heard, and of each promise at which event it was said."""
    if not events:
        raise ValueError('nothing was recorded: the program does not call the C library that the recorder stands before')
    heard, said = lines_at(events, 'h'), lines_at(events, 's')
    for session in sessions:
        asked, answered, history = heard.get(session.own_port, []), said.get(session.own_port, []), session.volume.history
        if [line for _, line in asked] != [line for line, _, _ in session.said] or [line for _, line in answered] != [reply for _, reply, _ in session.said]:
            raise ValueError('the record has other lines than a session')
        for (_, reply, meaning), (when_heard, _), (when_said, _) in zip(session.said, asked, answered):
            if meaning and meaning[0] == 'commit' and reply[0] == 'c':
                history.committed(int(reply.split(' ')[0][1:]), when_heard, meaning[1])
            elif meaning and meaning[0] == 'force' and reply == 'done':
                history.told(when_said, meaning[1])


def joined(threads, tick):
    """Starts threads and waits for their end, and has it told now and then that they go on."""
    for thread in threads:
        thread.start()
    for thread in threads:
        while thread.is_alive():
            thread.join(1)
            tick()


def serve(program, recorder, work, folder, options, volumes, seed, transactions, tick, clients=2):
    """A service of volumes under load, recorded from its start to its end: the events. Each volume gets its history."""
    record = os.path.join(work, 'record')
    words = [program, 'serve', *options, '--port', '0', '--workers', str(1 + seed % 3), '--sessions', str(clients * len(volumes))]
    words += [volume.word(folder) for volume in volumes]
    process = recording.start(recorder, record, folder, words, stdin=subprocess.DEVNULL, stdout=subprocess.PIPE, stderr=subprocess.PIPE, text=True)
    clock = threading.Timer(SECONDS, process.kill)
    clock.start()
    sessions = []
    try:
        port = process.stdout.readline().split()
        if len(port) == 2:
            for volume in volumes:
                volume.history = History(volume.size, BLOCKS, volume.base)
                rest = threading.Barrier(clients)
                sessions += [Session(int(port[1]), volume, place, 100 * seed + 10 * volume.slot + place, transactions, rest, folder) for place in range(clients)]
            joined(sessions, tick)
        _, err = process.communicate()
    finally:
        clock.cancel()
        process.kill()
        process.wait()
    faults = [session.fault for session in sessions if session.fault]
    if process.returncode != 0 or not sessions or faults:
        raise ValueError(f'a service under load: status {process.returncode}, {err.strip()!r:.200}, {faults}')
    events = recording.read(record, folder)
    os.unlink(record)
    placed(sessions, events)
    for volume in volumes:
        volume.history.told(len(events) - 1, max(commit.number for commit in volume.history.commits))
        volume.history.close()
    return events
