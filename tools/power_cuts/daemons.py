"""The daemon of examples/embed under load, recorded."""
import os
import random
import signal
import socket
import subprocess
import threading
import time

from power_cuts import recording
from power_cuts.history import History
from power_cuts.load import joined, lines_at

SIZE, BLOCKS, OWN, CLIENTS = 4096, 1024, 6, 3
SECONDS = 60


def free_port():
    with socket.socket() as it:
        it.bind(('127.0.0.1', 0))
        return it.getsockname()[1]


def connect(port):
    """A connection to a daemon that may only start."""
    until = time.monotonic() + 30
    while True:
        try:
            return socket.create_connection(('127.0.0.1', port), 30)
        except ConnectionRefusedError:
            if time.monotonic() > until:
                raise
            time.sleep(0.005)


class Putter(threading.Thread):
    """A client that puts texts into blocks of its own, one or some at a time, and waits for the answers."""

    def __init__(self, port, place, seed, puts):
        super().__init__(daemon=True)
        self.connection, self.dice, self.puts, self.fault = connect(port), random.Random(seed), puts, None
        self.port, self.owned = self.connection.getsockname()[1], [OWN * place + k for k in range(OWN)]

    def run(self):
        try:
            with self.connection as connection:
                lines, put = connection.makefile('r'), 0
                while put < self.puts:
                    more = self.dice.randint(1, 5)
                    texts = [f'put {self.dice.choice(self.owned)} {put + k} ' + 'x' * self.dice.choice((1, 100, 1500)) for k in range(more)]
                    connection.sendall(''.join(f'{text}\n' for text in texts).encode())
                    answers = [lines.readline() for _ in texts]
                    if answers != ['ok\n'] * more:
                        self.fault = f'{answers}'
                        return
                    put += more
        except OSError as fault:
            self.fault = str(fault)


def changed(history, content, number, heard, line):
    """Notes a put: the text, and a zero behind it, at the front of its block."""
    _, block, text = line.split(' ', 2)
    block, text = int(block), text.encode() + b'\0'
    content[block] = text + content[block][len(text):]
    history.committed(number, heard, {block: content[block]})


def histories(putters, base, events):
    """What each client put, in its order, and which of it was answered."""
    heard, said, found = lines_at(events, 'h'), lines_at(events, 's'), []
    for putter in putters:
        history = History(SIZE, BLOCKS, base, putter.owned)
        content = {block: base.get(block, bytes(SIZE)) for block in putter.owned}
        for number, (event, line) in enumerate(heard.get(putter.port, []), 1):
            changed(history, content, number, event, line)
        for number, (event, _) in enumerate(said.get(putter.port, []), 1):
            history.told(event, number)
        history.close()
        found.append(history)
    return found


def serve(program, recorder, work, folder, base, seed, puts, tick):
    """A daemon under load from its start to its end: the events, and the histories of its clients."""
    record, port = os.path.join(work, 'record'), free_port()
    words = [program, os.path.join(folder, 'home'), os.path.join(folder, 'log'), str(port)]
    process = recording.start(recorder, record, folder, words, stdin=subprocess.DEVNULL, stdout=subprocess.DEVNULL, stderr=subprocess.PIPE)
    clock = threading.Timer(SECONDS, process.kill)
    clock.start()
    try:
        putters = [Putter(port, place, 10 * seed + place, puts) for place in range(CLIENTS)]
        joined(putters, tick)
        process.send_signal(signal.SIGTERM)
        _, err = process.communicate()
    finally:
        clock.cancel()
        process.kill()
        process.wait()
    faults = [putter.fault for putter in putters if putter.fault]
    if process.returncode != 0 or faults:
        raise ValueError(f'the daemon under load: status {process.returncode}, {err!r:.200}, {faults}')
    events = recording.read(record, folder)
    os.unlink(record)
    return events, histories(putters, base, events)
