"""Services that stay: at a port or a path, without an end of sessions, until their standard input ends."""
import errno
import os
import socket
import subprocess
import threading
import time

from common import services
from common.checks import check
from common.files import in_a_folder, read, read_at, write
from common.services import volume_in
from common.sessions import Client
from plain_logs import BLOCK
from test_serve.logs import logged
from test_serve.service import Service

FLAG = ('--until-stdin-ends',)


class Staying(services.Service):
    """`xth serve --listen`, whose standard input goes on until its end is awaited."""

    def __init__(self, program, address, *words):
        super().__init__([program, 'serve', '--listen', address, *words], stdin=subprocess.PIPE)


@in_a_folder
def at_a_path(program, folder):
    """A service that stays listens at a path, takes sessions without end, recovers, and takes its path away."""
    path = f'{folder}/xth.sock'
    volume, address = volume_in(folder, 0, blocks=64), f'unix:{path}'
    service = Staying(program, address, *FLAG, volume)
    check('listening at a path', service.line, f'listening {address}')
    for number in range(40):
        with Client(address) as client:
            client.change('0.1', 7, 0, bytes([number + 1]) * 128)
    status, _, told = Staying(program, address, volume_in(folder, 1, blocks=64)).ended()
    check('one more at the path', (status, told), (1, f'fault: {path}: {os.strerror(errno.EADDRINUSE)} (os error {errno.EADDRINUSE})\n'))
    check('the end of a service at a path', service.ended(), (0, '', ''))
    check('its path is gone', os.path.exists(path), False)
    check('the last of forty sessions', read_at(f'{folder}/home0', 7 * BLOCK, 128), bytes([40]) * 128)
    left = socket.socket(socket.AF_UNIX)
    left.bind(path)
    left.close()
    service = Staying(program, address, *FLAG, volume)
    check('a path that was left behind', (service.line, service.ended()), (f'listening {address}', (0, '', 'slot 0: nothing to recover\n')))
    write(path, 'kept')
    check('a file at the path', Staying(program, address, volume).ended()[0], 1)
    check('it is as it was', read(path), b'kept')


def until_stdin_ends(program):
    """A service that ends where its standard input does: before any session, and with sessions that are silent, half said, waiting and at work."""
    for part in (empty_input, input_not_read, silent_session, cut_sessions):
        part(program)


@in_a_folder
def empty_input(program, folder):
    Service(program, folder, (0,), 1000, words=FLAG, stdin=subprocess.DEVNULL).end('an input with nothing in it')


@in_a_folder
def input_not_read(program, folder):
    service = Service(program, folder, (0,), 1, stdin=subprocess.DEVNULL)
    time.sleep(0.3)
    with Client(service.port) as client:
        check('without the option standard input is not read', client.ask('0.1 push'), 'ok')
    service.end('an input with nothing in it that is not read')


@in_a_folder
def silent_session(program, folder):
    service = Service(program, folder, (0,), 1, words=FLAG, stdin=subprocess.PIPE)
    service.process.stdin.write('words that are not read\n')
    service.process.stdin.flush()
    with Client(service.port) as client:
        client.change('0.1', 3, 0, b'abc')
        time.sleep(0.5)
        check('a silent session goes on while the input does', client.ask('0.1 push'), 'ok')
    service.process.wait(timeout=60)
    service.end('the last session before the end of input')


def talk_on(client, heard):
    """A client that never is silent."""
    try:
        while True:
            heard.append(client.ask('0.1 push'))
    except OSError:
        pass


@in_a_folder
def cut_sessions(program, folder):
    """Sixteen sessions and one that waits, and the end of input: silent ones end, what one has half said is no line, one that talks on is cut, one that
    changes shuts its volume."""
    service = Service(program, folder, (0, 1), 1000, words=FLAG, stdin=subprocess.PIPE)
    crowd = [Client(service.port) for _ in range(16)]
    for client in crowd:
        client.request('0.1 push')
    late = Client(service.port)
    late.say('0.1 push')
    crowd[0].change('0.1', 3, 0, b'abc')
    trans = crowd[1].begin('0.1', 700)
    crowd[1].request(f'0.1 get {trans} 9')
    crowd[2].socket.sendall(b'0.1 shutdown')
    other = crowd[3].begin('1.1', 700)
    crowd[3].request(f'1.1 read {other} 1')
    crowd[3].request(f'1.1 log {other} 1 0 ff')
    end_of_input(service, crowd[4])
    check('a silent session ends', crowd[1].replies.read(), b'')
    for client in crowd:
        client.close()
    try:
        check('one that waited is not served', late.replies.read(), b'')
    except ConnectionError:
        pass
    late.close()
    check('what was committed is in the log', logged(program, service, 0)[3][:3], b'abc')
    service.end('the end of input', err='slot 1 shut: CORRUPT_INCORE\n')


def end_of_input(service, talks):
    """Ends the input of a service while a client talks on."""
    heard = []
    talker = threading.Thread(target=talk_on, args=(talks, heard))
    talker.start()
    # on a loaded machine the thread may begin late, when all is over
    while talker.is_alive() and not heard:
        time.sleep(0.01)
    began = time.monotonic()
    service.process.stdin.close()
    service.process.stdin = None
    service.process.wait(timeout=60)
    check('it ends soon', time.monotonic() - began < 20, True)
    talker.join()
    check('one that talks on is answered meanwhile', len(heard) > 0, True)
