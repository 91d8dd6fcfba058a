#!/usr/bin/env python3
"""Cuts the power of the plugin, as the record of its calls says what a disk may hold then, and sees that all is there that was promised.

    cuts.py [--cuts N] [--seed N] PLUGIN

A *life* is nbdkit with the plugin under the load of clients, recorded from its start to its end by the recorder of tools/power-cuts. Each second one has its log on devices
of another server, which is recorded too. After a life of each kind comes one over what a cut of it has left. A cut takes a point of the record, and the replayer there keeps of what was not synced nothing, all, a beginning, some writes or some
sectors, with zeros or old bytes in the place of what is lost. Of sixteen cuts nbdkit recovers the volumes at once, and gives them to clients; one in ten recoveries is
recorded and cut too. Of each client there must be a beginning of its requests: all that a FLUSH or a FUA has covered, each whole or not at all, but that of one which
touches more than 64 blocks parts may be there, and none without those that were answered before it was sent, also by others. An orderly end must leave all of it home."""
import argparse
import collections
import contextlib
import itertools
import os
import random
import shutil
import signal
import socket
import subprocess
import sys
import tempfile
import threading
import time
from typing import NamedTuple

import nbd

sys.path.insert(0, os.path.join(os.path.dirname(os.path.abspath(__file__)), '..', '..', '..', 'tools'))
import usage  # noqa: E402
from power_cuts import cuts, disk, recording  # noqa: E402
from power_cuts.history import History  # noqa: E402

SIZE, BLOCKS, CLIENTS, OWN, MOST = 4096, 256, 3, 80, 64
REQUESTS, OF_ONE, AT_ONCE, RECOVERED = 70, 64, 16, 10
LOG, ROOM = 327680, 1 << 20  # bytes of a log, and of a device that it is on
SECONDS = 900  # a server that does not end in that time hangs
# the bytes of a request without data, and of an answer
ASKED, ANSWERED = 28, 16


class Fault(Exception):
    """Something is not as it must be."""


class Request(NamedTuple):
    """What a client has asked: the parts that are atomic, each with its offset and bytes; how long it was on the wire; whether it forces itself, or all."""
    parts: list
    length: int
    is_forced: bool
    is_flush: bool


@contextlib.contextmanager
def serving_logs(folders, start):
    """A server of the logs of some folders as devices, each by its place: its socket. It is told nothing of zeros, which are written."""
    with tempfile.TemporaryDirectory(dir=os.path.dirname(folders[0])) as logs:
        for place, folder in enumerate(folders):
            for name in ('log', 'log.1'):
                os.symlink(os.path.join(folder, name), os.path.join(logs, f'{place}.{name}'))
        address, ready = os.path.join(logs, 'socket'), os.path.join(logs, 'ready')
        process = start(['nbdkit', '-f', '-P', ready, '-U', address, '--filter=nozero', 'file', f'dir={logs}'])
        try:
            while not os.path.exists(ready) or not os.path.getsize(ready):
                if process.poll() is not None:
                    raise Fault('no server of logs')
                time.sleep(0.01)
            yield address
        finally:
            process.terminate()
            process.wait()


@contextlib.contextmanager
def served(plugin, folders, is_remote, start=subprocess.Popen):
    """nbdkit with an export of each folder, on a socket that is open before it starts: the process, and the address."""
    with contextlib.ExitStack() as stack:
        logs = stack.enter_context(serving_logs(folders, start)) if is_remote else ''
        words = ['nbdkit', '-f', plugin]
        for place, folder in enumerate(folders):
            words += [f'export=e{place}', f'home={folder}/home', f'size={SIZE * BLOCKS}', f'log-size={LOG}']
            words += [f'{name}=nbd+unix:///{place}.{name}?socket={logs}' for name in ('log', 'log.1')] if is_remote else [f'log={folder}/log']
        # a socket that was made before is descriptor 3 of the process that the environment names
        words = ['sh', '-c', 'exec 3<&0 0< /dev/null; LISTEN_PID=$$ LISTEN_FDS=1 exec "$@"', 'sh', *words]
        with socket.create_server(('127.0.0.1', 0), backlog=64) as listener:
            process = start(words, stdin=listener, stderr=subprocess.PIPE)
            address = listener.getsockname()
        clock = threading.Timer(SECONDS, process.kill)
        clock.start()
        try:
            yield process, address
        finally:
            clock.cancel()
            if process.poll() is None:
                process.kill()
            process.wait()
            process.stderr.close()


def ended(process):
    """Ends a server in order."""
    process.send_signal(signal.SIGTERM)
    _, said = process.communicate()
    if process.returncode != 0:
        raise Fault(f'nbdkit: status {process.returncode}, {said.decode(errors="replace")[-300:]}')


def connected(address, place):
    """A connection to an export, without structured answers, and its port."""
    handle, it = nbd.NBD(), socket.create_connection(address)
    port = it.getsockname()[1]
    handle.set_request_structured_replies(False)
    handle.set_export_name(f'e{place}')
    handle.connect_socket(it.detach())
    return handle, port


class Client(threading.Thread):
    """A client that writes blocks of its own, one request at a time, and remembers what it asked."""

    def __init__(self, address, place, seed, stamp):
        super().__init__(daemon=True)
        self.handle, self.port = connected(address, 0)
        self.base, self.dice, self.stamp, self.asked, self.fault = place * OWN * SIZE, random.Random(f'{seed} {place}'), stamp, [], None

    def place(self):
        """Where a request is, and how long."""
        length = self.dice.randint(1, self.dice.choice((200, 5000, 5000, 8 * SIZE, 24 * SIZE, MOST * SIZE, OWN * SIZE)))
        if self.dice.random() < 0.5:
            length = max(length // SIZE, 1) * SIZE
        at = self.dice.randint(0, OWN * SIZE - length)
        return (at // SIZE * SIZE if self.dice.random() < 0.5 else at) + self.base, length

    def one(self, number):
        if self.dice.random() < 0.1:
            self.handle.flush()
            self.asked.append(Request([], ASKED, True, True))
            return
        (at, length), is_forced, is_zero = self.place(), self.dice.random() < 0.1, self.dice.random() < 0.1
        flags, data, parts = nbd.CMD_FLAG_FUA * is_forced, bytes(length), []
        if is_zero:
            self.handle.zero(length, at, flags)
        else:
            data = (f'{self.stamp} {self.base} {number} '.encode() * (length // 8))[:length].ljust(length, b'.')
            self.handle.pwrite(data, at, flags)
        while data:
            part = MOST * SIZE - at % SIZE
            parts.append((at, data[:part]))
            at, data = at + len(data[:part]), data[part:]
        self.asked.append(Request(parts, ASKED + length * (not is_zero), is_forced, False))

    def run(self):
        try:
            for number in range(REQUESTS):
                self.one(number)
            self.handle.shutdown()
        except nbd.Error as fault:
            self.fault = str(fault)


def whole_at(events, kind, port, lengths, behind):
    """Behind which event of a stream each of some messages was whole, of which `behind` bytes more are its end; in front of them is the handshake."""
    sizes = [(number, len(event.data)) for number, event in enumerate(events) if event.kind == kind and event.offset == port]
    end, seen, found, sizes = sum(size for _, size in sizes) - behind - sum(lengths), 0, [], iter(sizes)
    number = -1
    for length in lengths:
        end += length
        while seen < end:
            number, size = next(sizes)
            seen += size
        found.append(number)
    return found


def told(clients, events, base):
    """The history of each client, with the events at which the parts of its requests were heard and told."""
    heard = [whole_at(events, 'h', client.port, [request.length for request in client.asked], ASKED) for client in clients]
    said = [whole_at(events, 's', client.port, [ANSWERED] * len(client.asked), 0) for client in clients]
    histories, numbers = [], []
    for place, client in enumerate(clients):
        history, content, last = History(SIZE, BLOCKS, base, range(place * OWN, (place + 1) * OWN)), dict(base), [0]
        for request, event in zip(client.asked, heard[place]):
            for at, data in request.parts:
                history.committed(1 + len(history.commits), event, changed(content, at, data))
            last.append(len(history.commits))
        histories.append(history)
        numbers.append(last)
    for place, client in enumerate(clients):
        for request, asked, answered, own in zip(client.asked, heard[place], said[place], numbers[place][1:]):
            if request.is_forced:
                histories[place].told(answered, own)
                for history, others, last in zip(histories, said, numbers):
                    history.told(answered, last[sum(event < asked for event in others)])
    for history in histories:
        history.close()
    return histories, said, numbers


def changed(content, at, data):
    """Lays bytes over the contents of blocks: those that are others then."""
    blocks = {}
    for block in range(at // SIZE, (at + len(data) - 1) // SIZE + 1):
        first, last = max(at, block * SIZE), min(at + len(data), (block + 1) * SIZE)
        was = content.get(block, bytes(SIZE))
        content[block] = blocks[block] = was[:first - block * SIZE] + data[first - at:last - at] + was[last - block * SIZE:]
    return blocks


class Life(NamedTuple):
    """What was recorded: the record, and behind which events the requests of each client were answered, with the numbers of their last parts."""
    is_remote: bool
    record: cuts.Record
    said: list
    numbers: list


def life(plugin, recorder, work, is_remote, base, known, seed):
    """nbdkit under load over files that are there or none, recorded."""
    folder, record = os.path.join(work, 'life'), os.path.join(work, 'record')
    put(folder, base)

    def start(words, **how):
        return recording.start(recorder, record, folder, words, **how)

    with served(plugin, [folder], is_remote, start) as (process, address):
        clients = [Client(address, place, seed, seed) for place in range(CLIENTS)]
        for client in clients:
            client.start()
        for client in clients:
            client.join()
        ended(process)
    faults = [client.fault for client in clients if client.fault]
    if faults:
        raise Fault(f'a client: {faults[0]}')
    events = recording.read(record, folder)
    os.unlink(record)
    histories, said, numbers = told(clients, events, known)
    place = cuts.Place('home', 'log', 0, BLOCKS, SIZE, histories)
    return Life(is_remote, cuts.Record('nbdkit', base, [[event] for event in events], [place], has_seals=True), said, numbers)


def put(folder, files):
    shutil.rmtree(folder, ignore_errors=True)
    os.mkdir(folder)
    for name, content in files.items():
        cuts.write(os.path.join(folder, name), content)


class Cut(NamedTuple):
    """A power cut: the event behind which it is, its kind, how it is told, and the files that it left."""
    event: int
    kind: str
    how: str
    files: dict


def recovered(plugin, work, is_remote, made):
    """What nbdkit gives to clients of each of some cuts; then it has ended in order, and that is home."""
    folders = [os.path.join(work, f'cut{place}') for place in range(len(made))]
    for folder, cut in zip(folders, made):
        put(folder, cut.files)
    with served(plugin, folders, is_remote) as (process, address):
        contents = []
        for place, cut in enumerate(made):
            try:
                handle, _ = connected(address, place)
                contents.append(b''.join(handle.pread(MOST * SIZE, at) for at in range(0, SIZE * BLOCKS, MOST * SIZE)))
                handle.shutdown()
            except nbd.Error as fault:
                raise Fault(f'{cut.how}: {fault}; its files: {kept(cut.files)}') from None
        ended(process)
    for folder, cut, content in zip(folders, made, contents):
        left = b''.join(cuts.read(os.path.join(folder, name))[SIZE * is_remote:] for name in ('log', 'log.1'))
        if cuts.read(os.path.join(folder, 'home')) != content or left.strip(b'\0') or bool(left) != is_remote:
            raise Fault(f'{cut.how}: an orderly end has not brought home what was recovered; its files: {kept(cut.files)}')
    return contents


def kept(files):
    """Where files are kept that were not recovered as they must be."""
    folder = os.path.join(tempfile.mkdtemp(prefix='nbdkit-cut.'), 'files')
    put(folder, files)
    return folder


def judged(made, cut, content):
    """Compares what was recovered with what each client was promised, and with what it saw of the others."""
    histories, found = made.record.places[0].histories, []
    for history in histories:
        number, why = history.found(content, cut.event)
        if number is None:
            raise Fault(f'{cut.how}: {why}; its files: {kept(cut.files)}')
        found.append(number)
    for history, number in zip(histories, found):
        heard = next((commit.heard for commit in history.commits if commit.number == number), -1)
        for other, others, last, least in zip(histories, made.said, made.numbers, found):
            must = last[sum(event < heard for event in others)]
            if least < must and all(other.differing(content, more) for more in other.numbers if must <= more <= other.may(cut.event)):
                raise Fault(f'{cut.how}: a request is there without one that was answered before it; its files: {kept(cut.files)}')


def ways(made, way, dice):
    """How the files of a log are left. Devices do not grow: each of their sectors is as it was or as it was written, as those of home are, or the last write is cut."""
    if not made.is_remote:
        return {name: way for name in ('log', 'log.1')}
    return {name: disk.BEGINNING for name in ('log', 'log.1')} if dice.random() < 0.3 else {}


def cut_recovery(made, plugin, recorder, work, cut, dice):
    """What a power cut leaves of a recovery of what a cut has left, and of the orderly end behind it."""
    folder, record = os.path.join(work, 'recovery'), os.path.join(work, 'record')
    put(folder, cut.files)

    def start(words, **how):
        return recording.start(recorder, record, folder, words, 0, **how)

    with served(plugin, [folder], made.is_remote, start) as (process, address):
        try:
            connected(address, 0)[0].shutdown()
        except nbd.Error as fault:
            raise Fault(f'{cut.how}: {fault}; its files: {kept(cut.files)}') from None
        ended(process)
    events = recording.read(record, folder)
    os.unlink(record)
    behind = dice.randrange(len(events))
    for number, left in disk.disks(cut.files, [[event] for event in events]):
        if number == behind:
            kind, how = f'in a recovery{" of remote logs" * made.is_remote}', f'{cut.how}, and of its recovery'
            return cut._replace(kind=kind, how=how, files=left.left(dice, ways(made, dice.choice(disk.WAYS), dice)))
    return cut


def cuts_of(made, plugin, recorder, work, seed, numbers):
    """Cuts of a life, by number."""
    chosen = cuts.chosen(made.record, seed, numbers)
    for event, left in disk.disks(made.record.base, made.record.events):
        while chosen and chosen[0][0] == event:
            _, number, way, dice = chosen.pop(0)
            kind = 'of remote logs' if made.is_remote else way
            cut = Cut(event, kind, f'cut {number}, {kind}, behind event {event} of {len(made.record.events)}', left.left(dice, ways(made, way, dice)))
            yield cut_recovery(made, plugin, recorder, work, cut, dice) if number % RECOVERED == 0 else cut


def all_cuts(asked, recorder, work):
    """So many cuts, of lives one after another."""
    done, lives, left, kinds = 0, 0, {}, collections.Counter()
    while done < asked.cuts:
        is_remote = lives % 2 == 1
        fresh = {'log': bytes(ROOM), 'log.1': bytes(ROOM)} if is_remote else {}
        is_fresh, (base, known) = is_remote not in left, left.pop(is_remote, (fresh, {}))
        made = life(asked.plugin, recorder, work, is_remote, base, known, f'{asked.seed} {lives}')
        cutting = cuts_of(made, asked.plugin, recorder, work, asked.seed, range(done, min(done + OF_ONE, asked.cuts)))
        while some := list(itertools.islice(cutting, AT_ONCE)):
            for cut, content in zip(some, recovered(asked.plugin, work, is_remote, some)):
                judged(made, cut, content)
                if is_fresh and len(cut.files) == 3:
                    left[is_remote] = cut.files, cuts.contents(content, SIZE, range(BLOCKS))
            done += len(some)
            kinds.update(cut.kind for cut in some)
            print(f'cuts: {done} of {asked.cuts}', file=sys.stderr, flush=True)
        lives += 1
    told = ', '.join(f'{kind} {number}' for kind, number in sorted(kinds.items()))
    print(f'cuts: seed {asked.seed}, {done} cuts of {lives} lives ({told}): nothing lost, nothing torn, each recovered and home at an orderly end')


def main():
    words = argparse.ArgumentParser(description=__doc__, formatter_class=argparse.RawDescriptionHelpFormatter)
    words.add_argument('--cuts', type=int, default=160)
    words.add_argument('--seed', type=int, default=1)
    words.add_argument('plugin', type=os.path.abspath)
    asked = words.parse_args()
    with tempfile.TemporaryDirectory(prefix='cuts.', dir=usage.in_memory()) as work:
        try:
            all_cuts(asked, recording.build(work), work)
        except (Fault, nbd.Error, OSError, recording.Unrecorded) as fault:
            sys.exit(f'cuts: seed {asked.seed}: {fault}')


if __name__ == '__main__':
    main()
