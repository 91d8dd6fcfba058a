"""Clients of a service: many at once, on volumes of each size, and such as say nothing, too much, or go away."""
import os
import random
import socket
import threading
import time

from common.checks import check
from common.files import in_a_folder, read
from common.services import volume_in
from common.sessions import Client
from common.texts import chunks_of, spell_text
from plain_logs import BLOCK
from test_serve.logs import logged
from test_serve.service import Service
from test_serve.staying import Staying

SIZES = (512, 1024, 2048, 4096)


def load(port, slot, count, dies, kept):
    """So many transactions on one mount; one that dies leaves in the middle of the last. What was committed is kept."""
    dice = random.Random(slot)
    mount = f'{slot}.1'
    with Client(port) as client:
        for _ in range(count):
            block, first = dice.randrange(40), dice.randrange(BLOCK - 8)
            data = dice.randbytes(dice.randrange(1, 8))
            client.change(mount, block, first, data)
            kept.append((block, first, data))
        if dies:
            trans = client.begin(mount, 700)
            client.request(f'{mount} read {trans} 50')
            client.say(f'{mount} hold {trans} 50', f'{mount} get {trans} 51', f'{mount} ge')
        else:
            client.force(mount)


@in_a_folder
def sixteen(program, count, folder):
    """Sixteen clients at once, each on a mount of its own, one of which goes away: files, logs and homes afterwards."""
    service = Service(program, folder, range(16), 16)
    kept = [[] for _ in range(16)]
    clients = [threading.Thread(target=load, args=(service.port, slot, count, slot == 5, kept[slot])) for slot in range(16)]
    for client in clients:
        client.start()
    for client in clients:
        client.join()
    service.end('sixteen clients')
    for slot in range(16):
        wanted = {}
        for block, first, data in kept[slot]:
            wanted.setdefault(block, bytearray(BLOCK))[first:first + len(data)] = data
        said = logged(program, service, slot)
        check(f'the log of slot {slot} has what was committed', said == wanted, True)
        content = read(service.home(slot))
        stored = {block: bytearray(content[block * BLOCK:(block + 1) * BLOCK].ljust(BLOCK, b'\0')) for block in wanted}
        check(f'the home file of slot {slot} has what its log says', stored == said, True)
        check(f'the home file of slot {slot} has nothing else', len(content) <= (max(wanted) + 1) * BLOCK, True)


@in_a_folder
def block_sizes(program, folder):
    """Volumes of each size beside one another: what a block has, what is past it, what it costs, and log and home file afterwards, also of a service
    that recovers them."""
    sizes = dict(zip((0, 3, 9, 15), SIZES))
    service = Service(program, folder, sizes, 1, sizes=sizes)
    with Client(service.port) as client:
        for slot, size in sizes.items():
            whole_block(client, slot, size)
            check(f'the log of blocks of {size}', read(service.log(slot)), spell_text(1, {7: chunks_of(bytes([slot]) * size)}, size))
            client.change(f'{slot}.1', 9, size - 1, b'\xff')
    service.end('volumes of each size')
    for slot, size in sizes.items():
        wanted = {7: bytes([slot]) * size, 9: bytes(size - 1) + b'\xff'}
        check(f'what is logged of blocks of {size}', logged(program, service, slot), wanted)
        check(f'the home file of blocks of {size}', read(service.home(slot)), (bytes(7 * size) + wanted[7]).ljust(9 * size, b'\0') + wanted[9])
        os.truncate(service.home(slot), 0)
    again = Service(program, folder, sizes, 1, words=('--recover',), sizes=sizes)
    with Client(again.port) as client:
        for slot, size in sizes.items():
            trans = client.begin(f'{slot}.1', 700)
            client.request(f'{slot}.1 read {trans} 7')
            check(f'a recovered block of {size}', client.ask(f'{slot}.1 view {trans} 7'), f'data {slot:02x}*{size}')
    again.end('volumes of each size, recovered', 0, ''.join(f'slot {slot}: recovered 2 texts 2 blocks\n' for slot in sizes))
    for slot, size in sizes.items():
        check(f'a block of {size} is home again', again.stored(slot, 9), bytes(size - 1) + b'\xff')


def whole_block(client, slot, size):
    """A block of a slot is logged whole, at what that costs and no less, and no byte past its end is."""
    ask = lambda request: client.ask(f'{slot}.1 {request}')
    short = [ask(f'alloc {36 + 16 + size - 1} 1 plain'), ask('get t1 7'), ask(f'log t1 7 0 {slot:02x}*{size}'), ask('cancel t1')]
    check(f'a byte too few for a block of {size}', short, ['t1', 'ok', 'ENOSPC', 'ok'])
    whole = [ask(f'alloc {36 + 16 + size} 1 plain'), ask('get t2 7'), ask(f'log t2 7 0 00*{size - 1}'), ask(f'log t2 7 0 {slot:02x}*{size}')]
    check(f'a fresh block of {size} is logged whole', whole, ['t2', 'ok', 'EINVAL', 'ok'])
    check(f'past the end of a block of {size}', [ask(f'log t2 7 {size} 01'), ask(f'log t2 7 {size - 1} 0101')], ['EINVAL', 'EINVAL'])
    check(f'a view of {size}', [ask('view t2 7'), ask('commit t2')], [f'data {slot:02x}*{size}', 'c1'])
    client.force(f'{slot}.1')


@in_a_folder
def bad_guests(program, folder):
    """Sessions that send nothing, half a line, too long a line, or go away in a transaction, beside one that behaves."""
    service = Service(program, folder, (0,), 7)
    port = service.port
    with Client(port) as good:
        silent = socket.create_connection(('127.0.0.1', port))
        half = Client(port)
        half.socket.sendall(b'0.1 allo')
        long = Client(port)
        long.socket.sendall(b'a' * 8401)
        check('a line of 8,401 bytes', (long.hear(), long.replies.read()), ('bad line', b''))
        longest = Client(port)
        longest.socket.sendall(b'a' * 8400 + b'\n0.1 push\n')
        check('a line of 8,400 bytes', (longest.hear(), longest.hear()), ('bad line', 'ok'))
        gone = Client(port)
        trans = gone.begin('0.1', 5000, 2, True)
        gone.request(f'0.1 get {trans} 9')
        gone.request(f'0.1 hold {trans} 9')
        other = good.begin('0.1', 700)
        check('a block that another has', good.ask(f'0.1 get {other} 9'), 'EAGAIN')
        check('a transaction that another has', good.ask(f'0.1 commit {trans}'), 'EINVAL')
        gone.close()
        check('a block whose client went away', good.again(f'0.1 get {other} 9'), 'ok')
        good.request(f'0.1 cancel {other}')
        check('what others did is not seen', good.ask('peek 0'), 'seen 1 live')
        last = Client(port)
        check('one more', last.ask('peek 1'), 'seen 0 live')
        for guest in (silent, half, long, longest, last):
            guest.close()
    service.end('bad guests')


@in_a_folder
def seventeen(program, folder):
    """A seventeenth client waits until one of sixteen goes."""
    service = Service(program, folder, (0,), 17)
    crowd = [Client(service.port) for _ in range(16)]
    for client in crowd:
        client.request('0.1 push')
    late = Client(service.port)
    late.say('0.1 push')
    late.socket.settimeout(0.3)
    try:
        late.hear()
        check('a seventeenth client waits', 'served', 'waits')
    except TimeoutError:
        check('a seventeenth client waits', 'waits', 'waits')
    late.close()
    crowd.pop().close()
    for client in crowd:
        client.close()
    service.end('seventeen clients')


@in_a_folder
def silent_clients(program, folder):
    """Of a service with an idle limit a silent session ends, and one that speaks does not."""
    service = Staying(program, '127.0.0.1:0', '--idle', '1', '--until-stdin-ends', volume_in(folder, 0))
    with Client(service.port) as silent, Client(service.port) as speaks:
        for _ in range(10):
            check('a client that speaks', speaks.ask('0.1 force'), 'done')
            time.sleep(0.25)
        silent.socket.settimeout(0.5)
        check('a client that was silent', silent.replies.read(), b'')
    check('the end of a service with an idle limit', service.ended(), (0, '', ''))


@in_a_folder
def frozen(program, folder):
    """A frozen mount opens no transaction, for any session, until one thaws it; all else goes on, and so do other mounts."""
    service = Service(program, folder, (0, 1), 3)
    with Client(service.port) as one, Client(service.port) as other:
        trans = other.begin('0.1', 4148, 2, True)
        check('freeze', [one.ask('0.1 freeze'), one.ask('0.1 freeze'), other.ask('0.1 freeze')], ['ok', 'EBUSY', 'EBUSY'])
        alloc = 'alloc 4148 1 plain'
        check('alloc of a frozen mount', [other.ask(f'0.1 {alloc}'), one.ask(f'0.1 {alloc}'), one.ask(f'1.1 {alloc}')], ['EAGAIN', 'EAGAIN', 't1'])
        said = [other.ask(f'0.1 {request}') for request in (f'read {trans} 7', f'log {trans} 7 0 01', f'roll {trans}', f'commit {trans}')]
        check('a transaction that was open goes on', said, ['ok', 'ok', 'c1', 'c0'])
        other.force('0.1')
        check('push and peek of a frozen mount', [other.ask('0.1 push'), other.ask('peek 0')], ['ok', 'seen 1 live'])
        one.close()
        begun = []
        with Client(service.port) as waiting:
            waiter = threading.Thread(target=lambda: begun.append(waiting.begin('0.1', 4148)))
            waiter.start()
            waiter.join(0.3)
            check('a client that asks again waits', (begun, other.ask(f'0.1 {alloc}')), ([], 'EAGAIN'))
            check('thaw', [other.ask('0.1 thaw'), other.ask('0.1 thaw')], ['ok', 'EINVAL'])
            waiter.join(30)
            check('a client that asks again is served', begun, ['t2'])
        check('frozen at the end', other.ask('0.1 freeze'), 'ok')
    service.end('a frozen mount')
    check('a frozen mount is home', service.stored(0, 7)[:2], b'\x01\0')
