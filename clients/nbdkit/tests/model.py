#!/usr/bin/env python3
"""Clients that know what their parts of exports have to say.

    model.py TURNS PARTS URI ..

Each export is cut into so many parts, and each part has a client, all at once, with a connection of its own: writes, zeros, reads and flushes of any length at any offset;
at the end the part is read whole. The dice are always the same. It prints the sum of what all of them have written, and the longest of 100 and of all requests but reads,
in milliseconds."""
import hashlib
import random
import sys
import threading
import time

import nbd

LONG = (1, 3, 128, 129, 4095, 4096, 4097, 70000, 262144, 300000, 1500000)
SHORT = (1, 3, 128, 4095, 4097, 9000)


class Client(threading.Thread):
    """A client of a part."""

    def __init__(self, uri, part, parts, turns, seed):
        super().__init__(daemon=True)
        self.handle, self.dice, self.turns, self.fault, self.times = nbd.NBD(), random.Random(seed), turns, None, []
        self.handle.connect_uri(uri)
        size = self.handle.get_size() // parts
        self.base, self.model = part * size, bytearray(size)

    def timed(self, call, *words):
        began = time.monotonic()
        call(*words)
        self.times.append(time.monotonic() - began)

    def turn(self, number):
        """One request: why it went wrong, or None."""
        length = self.dice.randint(1, min(self.dice.choice(LONG if number % 50 == 0 else SHORT), len(self.model)))
        at = self.dice.randint(0, len(self.model) - length)
        kind, flags = self.dice.random(), nbd.CMD_FLAG_FUA if self.dice.random() < 0.05 else 0
        if kind < 0.5:
            data = self.dice.randbytes(length)
            self.timed(self.handle.pwrite, data, self.base + at, flags)
            self.model[at:at + length] = data
        elif kind < 0.55:
            self.timed(self.handle.zero, length, self.base + at, flags)
            self.model[at:at + length] = bytes(length)
        elif kind < 0.95:
            if self.handle.pread(length, self.base + at) != self.model[at:at + length]:
                return f'request {number}: {length} bytes from {self.base + at} on are not what was written'
        else:
            self.timed(self.handle.flush)
        return None

    def whole(self):
        """What the part is not, in the end."""
        for at in range(0, len(self.model), 1 << 16):
            length = min(1 << 16, len(self.model) - at)
            if self.handle.pread(length, self.base + at) != self.model[at:at + length]:
                return f'{length} bytes from {self.base + at} on are not what was written'
        return None

    def run(self):
        try:
            for number in range(self.turns):
                self.fault = self.fault or self.turn(number)
            self.fault = self.fault or self.whole()
        except nbd.Error as fault:
            self.fault = str(fault)


def past_the_end(handle):
    for at, length in ((handle.get_size(), 1), (handle.get_size() - 1, 2)):
        try:
            handle.pwrite(bytes(length), at)
        except nbd.Error:
            continue
        sys.exit('model: a write past the end was answered')


def main():
    turns, parts, uris = int(sys.argv[1]), int(sys.argv[2]), sys.argv[3:]
    clients = [Client(uri, part, parts, turns, 7 + place * parts + part) for place, uri in enumerate(uris) for part in range(parts)]
    for client in clients:
        client.start()
    for client in clients:
        client.join()
    faults = [client.fault for client in clients if client.fault]
    if faults:
        sys.exit('model: ' + '; '.join(faults[:3]))
    past_the_end(clients[0].handle)
    times = sorted(spent * 1000 for client in clients for spent in client.times)
    print(f'{hashlib.sha256(b"".join(client.model for client in clients)).hexdigest()[:16]} {times[len(times) * 99 // 100]:.0f} {times[-1]:.0f}')


if __name__ == '__main__':
    main()
