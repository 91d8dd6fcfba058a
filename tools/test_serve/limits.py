"""Services that get no more files, threads or memory, or whose standard error is full."""
import os
import random
import resource
import shutil
import subprocess
import time

from common.checks import check
from common.files import in_a_folder
from common.sessions import Client
from plain_logs import BLOCK
from test_serve.service import Service, be_nobody

# how much memory a program has at least that is built with an address sanitizer, as the quick one: it takes no limit of it
SANITIZED = 1 << 40


def few_files():
    """Lets a process that begins open nine files."""
    resource.setrlimit(resource.RLIMIT_NOFILE, (9, 9))


def a_crowd(service):
    """Six clients, each of which has said a line."""
    crowd = [Client(service.port) for _ in range(6)]
    for client in crowd:
        client.say('0.1 push')
    return crowd


@in_a_folder
def too_many_files(program, folder):
    """Where no more files can be opened a stream that can't be accepted is told once, and accepted when another goes."""
    service = Service(program, folder, (0,), 6, limit=few_files)
    crowd = a_crowd(service)
    # none goes before it was told that one can't be accepted
    first = service.process.stderr.readline()
    for client in crowd:
        client.socket.settimeout(30)
        check('each is served at last', client.hear(), 'ok')
        client.close()
    status, _, said = service.ended()
    lines = (first + said).splitlines()
    check('it ends well', status, 0)
    check(f'what could not be accepted is told once: {lines}', len(lines) == 1 and lines[0].startswith('accept: '), True)


def is_sent_away(client):
    """Whether a client that says nothing is sent away within ten seconds."""
    client.socket.settimeout(10)
    try:
        return client.replies.read(1) == b''
    except ConnectionError:
        return True
    except TimeoutError:
        return False


@in_a_folder
def no_thread(program, folder):
    """Where no thread can be had for a session its client is sent away, a silent one too: it holds up no other, is told of once, and is no session."""
    os.chmod(folder, 0o777)
    for_all = shutil.copy(program, os.path.join(folder, 'program'))
    os.chmod(for_all, 0o755)
    service = Service(for_all, folder, (0,), 2, limit=be_nobody)
    service.refuse_threads(True)
    for name in ('first', 'second'):
        with Client(service.port) as silent:
            check(f'the {name} client without a thread is sent away', is_sent_away(silent), True)
    service.refuse_threads(False)
    with Client(service.port) as one, Client(service.port) as other:
        for client in (one, other):
            client.socket.settimeout(30)
            client.say('0.1 push')
        check('clients are served once there are threads', [one.hear(), other.hear()], ['ok', 'ok'])
    service.end('clients without a thread', err='accept: no thread for a session; its client is sent away, and so are others until there is one\n')


def full_pipe():
    """A pipe that takes no byte more, and that nobody reads: both its ends."""
    reads, writes = os.pipe()
    os.set_blocking(writes, False)
    for size in (4096, 1):
        try:
            while True:
                os.write(writes, b'x' * size)
        except BlockingIOError:
            pass
    os.set_blocking(writes, True)
    return reads, writes


@in_a_folder
def full_stderr(program, folder):
    """A standard error that nobody reads, and that is full, holds up no client, and not the end."""
    reads, writes = full_pipe()
    service = Service(program, folder, (0,), 6, stderr=writes, limit=few_files)
    os.close(writes)
    crowd = a_crowd(service)
    time.sleep(0.5)
    heard = []
    for client in crowd:
        client.socket.settimeout(10)
        try:
            heard.append(client.hear())
        except (TimeoutError, ConnectionError):
            heard.append(None)
        client.close()
    check('each is served beside a full standard error', heard, ['ok'] * 6)
    try:
        check('it ends beside a full standard error', service.process.wait(timeout=30), 0)
    except subprocess.TimeoutExpired:
        check('it ends beside a full standard error', 'not', 'ended')
        service.process.kill()
    os.close(reads)


def force_within(client, mount, seconds):
    """Whether what is committed is in the log within a time."""
    client.socket.settimeout(seconds)
    until = time.monotonic() + seconds
    try:
        while client.again(f'{mount} force') != 'done':
            if time.monotonic() > until:
                return False
            time.sleep(0.01)
    except TimeoutError:
        return False
    return True


@in_a_folder
def no_memory(program, folder):
    """A checkpoint for which there is no memory holds up its own volume alone, also where one worker serves all, and costs next to no processor."""
    # a log so large that no checkpoint is asked for before it is forced
    service = Service(program, folder, (0, 1), 2, workers=1, one_heap=True, log_bytes=16777216)
    if service.memory() > SANITIZED:
        print('left out: a checkpoint without memory, since this program takes no limit of its memory')
        service.killed()
        return
    with Client(service.port) as large, Client(service.port) as small:
        for number in range(3):
            small.change('1.1', number, 0, b'abc')
            small.force('1.1')
        for block in range(60):
            large.change('0.1', block, 0, random.Random(block).randbytes(BLOCK))
        # enough for a request, and not for the text of 60 blocks
        service.limit_memory(163840)
        said = set()
        for _ in range(5):
            said.add(large.ask('0.1 force'))
            time.sleep(0.2)
        check('a large checkpoint waits', said, {'wait c1'})
        began = service.worked_seconds()
        time.sleep(1)
        check('its worker rests', service.worked_seconds() - began < 0.3, True)
        small.change('1.1', 9, 0, b'abc')
        check('a small checkpoint of another volume goes on', force_within(small, '1.1', 10), True)
        service.limit_memory(None)
        check('the large one goes on once there is memory', force_within(large, '0.1', 30), True)
    service.end('a checkpoint without memory')
