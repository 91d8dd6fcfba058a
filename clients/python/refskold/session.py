"""Sessions with `xth serve`, over TCP or a path, over the standard library alone."""
import re
import socket
import time

ERRNO = re.compile(r'E[A-Z]+')
RUN = re.compile(rb'(.)\1{3,}', re.DOTALL)
# seconds between two times that the same is asked: twice as long each time, up to the most
LEAST_PAUSE, MOST_PAUSE = 0.001, 0.1
# how long the same is asked again, where nothing else is said
PATIENCE = 10.0
# what a leg costs beside its blocks; what a block costs beside its bytes
LEG, ITEM = 36, 16
CHUNK = 128


def spell(data):
    """Bytes as lines spell them: runs of four and more as `XX*N`, the rest as digits, joined by dots; none as `-`."""
    parts, at = [], 0
    for run in RUN.finditer(data):
        parts += [data[at:run.start()].hex()] * (at < run.start()) + [f'{run[1].hex()}*{len(run[0])}']
        at = run.end()
    return '.'.join(parts + [data[at:].hex()] * (at < len(data))) or '-'


def unspell(text):
    """The bytes that a reply spells."""
    parts = () if text == '-' else text.split('.')
    return b''.join(bytes.fromhex(part[:2]) * int(part[3:]) if part[2:3] == '*' else bytes.fromhex(part) for part in parts)


def cost(first, length):
    """The log bytes that a leg is charged which writes so many bytes of one block, from `first` on."""
    return LEG + ITEM + CHUNK * ((first + length - 1) // CHUNK - first // CHUNK + 1)


def pauses():
    """How long to wait each time before the same is asked again."""
    pause = LEAST_PAUSE
    while True:
        yield pause
        pause = min(2 * pause, MOST_PAUSE)


class Refused(Exception):
    """A request was refused: `errno` is EAGAIN, EBUSY, EINVAL, EIO, ENOBUFS, ENODEV, ENOMEM, ENOSPC, ESTALE, or `bad line`. A commit or a
    roll that gives its leg up tells the blocks that it leaves held: `held`, ascending, which are still this session's to give back."""

    def __init__(self, reply):
        super().__init__(reply)
        self.errno, _, blocks = reply.partition(' held ')
        self.held = [int(block) for block in blocks.split()]


def connected(port, host):
    """A stream to a service that listens at a port, or, where `port` is 'unix:PATH', at that path."""
    if isinstance(port, str) and port.startswith('unix:'):
        stream = socket.socket(socket.AF_UNIX)
        try:
            stream.connect(port[len('unix:'):])
        except OSError:
            stream.close()
            raise
        return stream
    stream = socket.create_connection((host, port))
    stream.setsockopt(socket.IPPROTO_TCP, socket.TCP_NODELAY, 1)
    return stream


class Session:
    """One session, at a port or at 'unix:PATH'. What it still has at its end is cancelled and released by the service. `patience` are the
    seconds for which the same is asked again, None without an end."""

    def __init__(self, port, host='127.0.0.1', patience=PATIENCE):
        self.patience = patience
        self.socket = connected(port, host)
        self.replies = self.socket.makefile('rb')

    def __enter__(self):
        return self

    def __exit__(self, *_):
        self.close()

    def close(self):
        self.replies.close()
        self.socket.close()

    def say(self, *lines):
        """Says lines without waiting for the replies: one reply comes for each, in their order."""
        self.socket.sendall(''.join(line + '\n' for line in lines).encode())

    def hear(self):
        """The next reply; ConnectionError where the session has ended."""
        reply = self.replies.readline()
        if not reply.endswith(b'\n'):
            raise ConnectionError('the session has ended')
        return reply[:-1].decode()

    def ask(self, line):
        """Says a line, and gives the reply, whatever it is."""
        self.say(line)
        return self.hear()

    def request(self, line):
        """Says a line; a refusal is raised."""
        reply = self.ask(line)
        if reply == 'bad line' or ERRNO.fullmatch(reply.split(' ')[0]):
            raise Refused(reply)
        return reply

    def waits(self, line, errno, seconds):
        """Is told of each refusal behind which the same is asked again, and since when; for who wants to tell it."""

    def again(self, line):
        """The same, again after a pause while it is EAGAIN or ENOMEM: what others have may be given back. The last refusal is raised where the
        patience has an end: a frozen volume, or a block that is never given back, keeps nobody here."""
        start = time.monotonic()
        for pause in pauses():
            try:
                return self.request(line)
            except Refused as refused:
                waited = time.monotonic() - start
                if refused.errno not in ('EAGAIN', 'ENOMEM') or self.is_over(waited):
                    raise
                self.waits(line, refused.errno, waited)
            time.sleep(pause)

    def is_over(self, waited):
        """Whether so many seconds are more than the patience."""
        return self.patience is not None and waited >= self.patience

    def begin(self, mount, unit, count=1, rolls=False):
        """Opens a transaction of a mount, as '0.1': its name, as 't1'."""
        return self.again(f'{mount} alloc {unit} {count} {"perm" if rolls else "plain"}')

    def view(self, mount, trans, block):
        """What a transaction sees of its block."""
        return unspell(self.request(f'{mount} view {trans} {block}').split(' ')[1])

    def read(self, mount, block):
        """What a block has, by a transaction that changes nothing."""
        trans = self.begin(mount, 1)
        try:
            self.again(f'{mount} read {trans} {block}')
            return self.view(mount, trans, block)
        finally:
            self.ask(f'{mount} cancel {trans}')

    def change(self, mount, block, first, data):
        """One transaction that writes bytes into a block, from `first` on: the checkpoint that has it, as 'c1'."""
        trans = self.begin(mount, cost(first, len(data)))
        try:
            self.again(f'{mount} read {trans} {block}')
            self.request(f'{mount} log {trans} {block} {first} {spell(data)}')
        except Refused:
            # nothing is changed, so this shuts no volume
            self.ask(f'{mount} cancel {trans}')
            raise
        return self.again(f'{mount} commit {trans}')

    def force(self, mount):
        """Waits until all that is committed is in the log; TimeoutError where the patience has an end."""
        start = time.monotonic()
        for pause in pauses():
            if self.again(f'{mount} force') == 'done':
                return
            if self.is_over(time.monotonic() - start):
                raise TimeoutError(f'{mount} force is not done yet')
            time.sleep(pause)
