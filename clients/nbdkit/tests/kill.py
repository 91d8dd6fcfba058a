#!/usr/bin/env python3
"""Kills a server of block devices again and again, and checks what its clients find afterwards.

    kill.py [--rounds N] [--seconds S] [--clients N] [--seed N] [--long] URI COMMAND..

COMMAND starts the server in the foreground, and is killed with its process group; URI is its export. The next one starts once all of that group have ended, since
one that is killed in a write may do a part of it yet. Each client writes a region of its own, one request at a time, each request a number that goes up, and some
clients flush. After a kill the region of a client must be what it was after one of its requests, and not before the last that a flush of anybody has covered: nothing
flushed is lost, each request is there whole or not at all, and none without those before it. Requests touch at most 64 blocks of 4,096 bytes; with --long some touch
more, and of these a beginning may be there."""
import argparse
import os
import random
import signal
import subprocess
import sys
import threading
import time

import nbd

UNIT, REGION, MOST = 512, 4096, 504  # bytes of a unit; units of a region, and of a request that is atomic wherever it begins


def fill(number, units):
    return number.to_bytes(8, 'little') * (UNIT // 8 * units)


class Client:
    """What a client has asked, and what is to be found of it."""

    def __init__(self, place):
        self.place, self.base, self.based = place, bytes(UNIT * REGION), 0  # its region, as it was after that request
        self.done = self.floor = 0  # its last request that was answered, and the last that a flush has covered
        self.sent = []

    def request(self, dice, number, is_small, is_long):
        """The first unit of a request, and how many it has."""
        longest = 2048 if is_long and dice.random() < 0.1 else dice.choice((1, 8) if is_small else (1, 8, 16, 128, MOST))
        units = dice.randint(1, longest)
        first = dice.randint(0, REGION - units)
        if dice.random() < 0.5:  # whole blocks
            first = first // 8 * 8
            units = min((units + 7) // 8 * 8, REGION - first, longest)
        self.sent.append((number, first, units))
        return first, units

    def expected(self, last, room):
        """The region after a request; of one that is longer than is atomic, as much of it as the room has."""
        state = bytearray(self.base)
        for number, first, units in self.sent:
            if number > last:
                break
            end = first + units
            if number == last and units > MOST:
                end = first
                while end < first + units and room[end * UNIT:end * UNIT + 8] == fill(last, 1)[:8]:
                    end += 1
            state[first * UNIT:end * UNIT] = fill(number, end - first)
        return state

    def check(self, handle):
        """Why the region is wrong, or None; the next round begins with it."""
        room = bytearray()
        while len(room) < REGION * UNIT:
            room += handle.pread(1 << 18, self.place * REGION * UNIT + len(room))
        last = max(int.from_bytes(room[k:k + 8], 'little') for k in range(0, len(room), UNIT))
        if last < self.floor:
            return f'client {self.place}: request {self.floor} was flushed, {last} is the last that is there'
        if self.expected(last, room) != room:
            return f'client {self.place}: not as after request {last} (flushed {self.floor})'
        self.base, self.based, self.floor, self.done, self.sent = bytes(room), last, last, last, []
        return None


class Round:
    """A server under load, until it is killed."""

    def __init__(self, asked, clients, number, counts):
        self.asked, self.clients, self.counts, self.lock = asked, clients, counts, threading.Lock()
        self.dice, self.is_small = random.Random(asked.seed * 1000 + number), number % 2 == 1
        self.covering, self.until = threading.Event(), time.monotonic() + asked.seconds * (0.2 + self.dice.random())

    def covers(self, covered, client=None):
        """A flush covers what all had done, or a write with FUA its own."""
        with self.lock:
            for other, done in zip(self.clients, covered):
                if client in (None, other):
                    other.floor = max(other.floor, done)
        if self.is_small and time.monotonic() > self.until:
            self.covering.set()

    def one(self, client, handle, dice, number):
        first, units = client.request(dice, number, self.is_small, self.asked.long)
        flags = nbd.CMD_FLAG_FUA if dice.random() < 0.05 else 0
        handle.pwrite(fill(number, units), (client.place * REGION + first) * UNIT, flags)
        with self.lock:
            self.counts['writes'] += 1
            client.done = number
            covered = [other.done for other in self.clients]
        if flags:
            self.covers(covered, client)
        if dice.random() < 0.05:
            handle.flush()
            self.covers(covered)
            with self.lock:
                self.counts['flushes'] += 1

    def run(self, client, handle, dice):
        try:
            number = client.based
            while True:
                number += 1
                self.one(client, handle, dice, number)
        except nbd.Error:
            pass

    def kill_under_load(self, server, handles):
        """In every other round requests are small, and the kill comes just behind the answer to a flush."""
        threads = [threading.Thread(target=self.run, args=(client, handle, random.Random(self.dice.random()))) for client, handle in zip(self.clients, handles)]
        for thread in threads:
            thread.start()
        if self.is_small:
            self.covering.wait(60)
        else:
            time.sleep(max(0, self.until - time.monotonic()))
        os.killpg(server.pid, signal.SIGKILL)
        server.wait()
        for thread in threads:
            thread.join()


def connect(uri):
    """A connection to a server that may only start."""
    for _ in range(6000):
        handle = nbd.NBD()
        try:
            handle.connect_uri(uri)
            return handle
        except nbd.Error:
            time.sleep(0.05)
    raise ConnectionError('no server')


def round_of(asked, clients, number, counts, server):
    """A round with a server, which is killed: why what its clients find first is wrong, or nothing."""
    try:
        handles = [connect(asked.uri) for _ in clients]
        wrong = [text for text in (client.check(handle) for client, handle in zip(clients, handles)) if text]
        if not wrong:
            Round(asked, clients, number, counts).kill_under_load(server, handles)
    except (nbd.Error, OSError) as fault:
        wrong = [str(fault)]
    finally:
        if server.returncode is None:  # also where it has ended: the others of its group have not
            os.killpg(server.pid, signal.SIGKILL)
    return '; '.join(wrong)


def main():
    words = argparse.ArgumentParser(description=__doc__, formatter_class=argparse.RawDescriptionHelpFormatter)
    words.add_argument('--rounds', type=int, default=20)
    words.add_argument('--seconds', type=float, default=2)
    words.add_argument('--clients', type=int, default=8)
    words.add_argument('--seed', type=int, default=1)
    words.add_argument('--long', action='store_true')
    words.add_argument('uri')
    words.add_argument('command', nargs=argparse.REMAINDER)
    asked = words.parse_args()
    clients, counts = [Client(place) for place in range(asked.clients)], {'writes': 0, 'flushes': 0}
    for number in range(asked.rounds):
        ended, held = os.pipe()
        with open(ended, 'rb') as all_ended:
            with subprocess.Popen(asked.command, start_new_session=True, pass_fds=[held]) as server:
                os.close(held)
                wrong = round_of(asked, clients, number, counts, server)
            all_ended.read()  # what they all had is let go by the last
        if wrong:
            sys.exit(f'kill: round {number}: {wrong}')
    print(f"kill: {asked.rounds} rounds, {counts['writes']} writes, {counts['flushes']} flushes: nothing lost, nothing torn")


if __name__ == '__main__':
    main()
