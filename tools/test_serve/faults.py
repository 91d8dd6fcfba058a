"""Volumes that are shut, and files of volumes that fail: what is told of them, what goes on, and what is recovered then."""
import errno
import os

from common.checks import check
from common.files import in_a_folder
from common.sessions import Client, Refused, refusal
from plain_logs import BLOCK
from test_serve.logs import logged
from test_serve.service import Service


@in_a_folder
def shut_is_told(program, folder):
    """A mount that can't be unmounted is told, and the others end well."""
    service = Service(program, folder, (0, 1), 1)
    with Client(service.port) as client:
        client.change('1.1', 3, 0, b'abc')
        trans = client.begin('0.1', 700)
        client.request(f'0.1 read {trans} 1')
        client.request(f'0.1 log {trans} 1 0 ff')
    service.process.wait(timeout=60)
    check('the log of the other has its change', logged(program, service, 1)[3][:3], b'abc')
    service.end('a mount that was shut', err='slot 0 shut: CORRUPT_INCORE\n')


@in_a_folder
def shut_by(program, name, files, slots, asks, err, status, fails, folder):
    """Volumes that are shut by what a client asks: what is told at the end, and the status."""
    service = Service(program, folder, slots, 1, files=files)
    with Client(service.port) as client:
        for ask in asks:
            ask(client)
    service.end(name, status, err, fails)


def fail_a_read(client):
    """A read that fails beside a change shuts its mount, and no other."""
    trans = client.begin('2.1', 5000)
    client.request(f'2.1 get {trans} 5')
    client.request(f'2.1 log {trans} 5 0 ff*{BLOCK}')
    check('a read that fails', client.ask(f'2.1 read {trans} 3'), 'EIO')
    check('who was shut', [client.ask('peek 2'), client.ask('peek 6')], ['seen 1 META_IO_ERROR', 'seen 1 live'])


def shut_reasons(program):
    """Each reason is told, ascending by slot; the status is 1 where a device failed."""
    force = lambda slot: lambda client: client.ask(f'{slot}.1 shutdown')
    change = lambda slot: lambda client: client.change(f'{slot}.1', 3, 0, b'abc')
    shut_by(program, 'a forced unmount', {}, (3,), [force(3)], 'slot 3 shut: FORCE_UMOUNT\n', 0, [])
    full = lambda slot: ('log', slot, errno.ENOSPC, 'shut, LOG_IO_ERROR')
    shut_by(program, 'a full log', {'log0': '/dev/full'}, (0,), [change(0)], 'slot 0 shut: LOG_IO_ERROR\n', 1, [full(0)])
    shut_by(program, 'a full home device', {'home0': '/dev/full'}, (0,), [change(0)], 'fault: slot 0 busy\n', 1, [('home', 0, errno.ENOSPC, 'its blocks wait')])
    # a read of it fails at these blocks, and a mount that is shut writes none
    shut_by(program, 'a home device that is not read', {'home2': '/proc/self/mem'}, (2, 6), [fail_a_read], 'slot 2 shut: META_IO_ERROR\n', 1,
            [('home', 2, errno.EIO, 'a block is not read')])
    shut_by(program, 'a full log beside others', {'log4': '/dev/full'}, (12, 4, 7, 1), [force(12), change(7), change(4), force(1)],
            'slot 1 shut: FORCE_UMOUNT\nslot 4 shut: LOG_IO_ERROR\nslot 12 shut: FORCE_UMOUNT\n', 1, [full(4)])


@in_a_folder
def told_at_once(program, folder):
    """A log and a home device that fail are told when they do, and once, while the service goes on."""
    service = Service(program, folder, (0, 1, 2), 1, files={'log0': '/dev/full', 'home1': '/proc/self/mem'}, ignores_limits=True)
    with Client(service.port) as client:
        trans = client.begin('1.1', 700)
        for _ in range(2):
            check('a read that fails', client.ask(f'1.1 read {trans} 3'), 'EIO')
        client.request(f'1.1 cancel {trans}')
        check('a read that fails is told', service.told(), service.failed('home', 1, errno.EIO, 'a block is not read'))
        client.change('0.1', 3, 0, b'abc')
        check('a log that fails', refusal(client.force, '0.1'), ('EIO', []))
        check('a log that fails is told', service.told(), service.failed('log', 0, errno.ENOSPC, 'shut, LOG_IO_ERROR'))
        service.limit_files(65536)
        client.change('2.1', 100, 0, b'abc')
        client.force('2.1')
        client.request('2.1 push')
        check('a home device that fails is told', service.told(), service.failed('home', 2, errno.EFBIG, 'its blocks wait'))
        check('which are shut', [client.ask(f'peek {slot}') for slot in (0, 1, 2)], ['seen 1 LOG_IO_ERROR', 'seen 1 live', 'seen 1 live'])
    service.end('files that failed', 1, 'slot 0 shut: LOG_IO_ERROR\nfault: slot 2 busy\n')


def fill(client, mount):
    """Changes a block of a mount, and forces, until that is refused: the last byte of which it was told that it is done, and the errno."""
    done = None
    for byte in range(256):
        try:
            client.change(mount, 3, 0, bytes([byte]) * BLOCK)
            client.force(mount)
        except Refused as refused:
            return done, refused.errno
        done = byte
    return done, None


@in_a_folder
def full_log(program, folder):
    """A log file that may grow no longer shuts its own volume, and what was told to be done is recovered."""
    service = Service(program, folder, (0, 1), 1, ignores_limits=True)
    service.limit_files(65536)
    with Client(service.port) as client:
        done, refused_by = fill(client, '0.1')
        check('a full log', (done, refused_by, client.ask('peek 0')), (14, 'EIO', 'seen 1 LOG_IO_ERROR'))
        client.change('1.1', 3, 0, b'abc')
        client.force('1.1')
        check('another volume beside a full log', client.ask('peek 1'), 'seen 1 live')
    check('a full log: ended by itself', service.ended()[0] >= 0, True)
    check('a full log has whole texts up to the last that was done', logged(program, service, 0), {3: bytes([done]) * BLOCK})
    check('the log of the other', logged(program, service, 1)[3][:3], b'abc')
    again = Service(program, folder, (0, 1), 1, words=('--recover',))
    Client(again.port).close()
    again.end('a full log, recovered', 0, f'slot 0: recovered {done + 1} texts 1 blocks\nslot 1: recovered 1 texts 1 blocks\n')
    check('what was done is home', again.stored(0, 3), bytes([done]) * BLOCK)


def full_home(program):
    """A home file that may grow no longer leaves its volume live, and in use at the end. Its log stays, and the next service recovers it."""
    full_homes(program, (), (5,), (5,))
    full_homes(program, ('--cut-logs',), (0, 3, 9, 15), (0, 9, 15))


@in_a_folder
def full_homes(program, options, slots, full, folder):
    """Some of the home files may grow no longer."""
    service = Service(program, folder, slots, 1, words=options, ignores_limits=True)
    service.limit_files(65536)
    with Client(service.port) as client:
        for slot in slots:
            client.change(f'{slot}.1', 100 if slot in full else 1, 0, bytes([slot]) * 8)
            client.force(f'{slot}.1')
            check(f'a push of slot {slot}', (client.ask(f'{slot}.1 push'), client.ask(f'peek {slot}')), ('ok', 'seen 1 live'))
    busy = ''.join(f'fault: slot {slot} busy\n' for slot in full)
    service.end(f'full homes of {full}', 1, busy, [('home', slot, errno.EFBIG, 'its blocks wait') for slot in full])
    for slot in full:
        check(f'nothing of slot {slot} is home', service.stored(slot, 100), bytes(BLOCK))
    check('which logs stay', [slot for slot in slots if os.path.getsize(service.log(slot)) > 0], list(full))
    again = Service(program, folder, slots, 1, words=('--recover',))
    Client(again.port).close()
    left = {slot: 'recovered 1 texts 1 blocks' if slot in full else 'nothing to recover' for slot in slots}
    again.end(f'full homes of {full}, recovered', 0, ''.join(f'slot {slot}: {left[slot]}\n' for slot in slots))
    for slot in slots:
        check(f'slot {slot} is home', again.stored(slot, 100 if slot in full else 1)[:9], bytes([slot]) * 8 + b'\0')
