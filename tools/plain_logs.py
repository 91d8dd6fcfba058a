"""A plain reading of logs, written apart from the one of the program, for the tools that compare with it."""
from typing import NamedTuple

BLOCK = 4096
CHUNK = 128
# what the text of a checkpoint may say of the bytes of a block: nothing, or one of these
FORMS = (None, 512, 1024, 2048, 4096)


def spell_text(number, items, size=None):
    """The text of a checkpoint: of each block its chunks with their bytes, and none of a cancel; it says the size of a block where one is told."""
    text = (b'XCP2' if size else b'XCP1') + number.to_bytes(8, 'big') + len(items).to_bytes(4, 'big')
    text += size.to_bytes(4, 'big') if size else b''
    for block, chunks in sorted(items.items()):
        word = sum(1 << chunk for chunk in chunks)
        text += block.to_bytes(8, 'big') + word.to_bytes(4, 'big') + int(not chunks).to_bytes(4, 'big')
        text += b''.join(chunks[chunk] for chunk in sorted(chunks))
    return text + (b'XCE2' if size else b'XCE1') + len(items).to_bytes(4, 'big') + number.to_bytes(8, 'big')


class Broken(Exception):
    """A field breaks its rule: where it begins."""


class Fields:
    """The fields of a log from a place on; EOFError where one is not there."""

    def __init__(self, log, at):
        self.log, self.at = log, at

    def bytes(self, size):
        if self.at + size > len(self.log):
            raise EOFError
        self.at += size
        return self.log[self.at - size:self.at]

    def number(self, size, rule):
        found = int.from_bytes(self.bytes(size), 'big')
        if not rule(found):
            raise Broken(self.at - size)
        return found


def read_text(log, at):
    """The size of a block that the text at a place says, if it does, its items, and where it ends."""
    fields = Fields(log, at)
    magic = fields.number(4, lambda magic: magic in (0x58435031, 0x58435032))
    number = fields.number(8, lambda number: number >= 1)
    count = fields.number(4, lambda count: 1 <= count <= 64)
    size = fields.number(4, lambda size: size in FORMS) if magic == 0x58435032 else None
    chunks = (size or BLOCK) // CHUNK
    items, last = {}, -1
    for _ in range(count):
        last = fields.number(8, lambda block: block > last)
        word = fields.number(4, lambda word: word < 1 << chunks)
        fields.number(4, lambda flag: flag == (word == 0))
        items[last] = {chunk: fields.bytes(CHUNK) for chunk in range(chunks) if word >> chunk & 1}
    fields.number(4, lambda end: end == magic - 0x58435031 + 0x58434531)
    fields.number(4, lambda again: again == count)
    fields.number(8, lambda again: again == number)
    return size, items, fields.at


def whole_texts(log):
    """How many bytes at the front of a log are whole texts: up to an unfinished end, or to one that breaks a rule."""
    at = 0
    try:
        while at < len(log):
            at = read_text(log, at)[2]
    except (EOFError, Broken):
        pass
    return at

# ---- sealed logs

SEALED, HEADER, SEAL = b'XCL1', 64, 8
# the most bytes of a text that was not synced, and its seal: more behind the texts of a file is no torn end
LONGEST_REST = 263_212
MASK = (1 << 64) - 1


def rotated(word, bits):
    return (word << bits | word >> 64 - bits) & MASK


def plain_sum(data):
    """SipHash-1-3 with both keys 0, word by word."""
    a, b, c, d = 0x736f6d6570736575, 0x646f72616e646f6d, 0x6c7967656e657261, 0x7465646279746573

    def turn():
        nonlocal a, b, c, d
        a, c = (a + b) & MASK, (c + d) & MASK
        b, d = rotated(b, 13) ^ a, rotated(d, 16) ^ c
        a, c = (rotated(a, 32) + d) & MASK, (c + b) & MASK
        b, d, c = rotated(b, 17) ^ c, rotated(d, 21) ^ a, rotated(c, 32)

    whole = len(data) - len(data) % 8
    words = [int.from_bytes(data[at:at + 8], 'little') for at in range(0, whole, 8)]
    for word in (*words, int.from_bytes(data[whole:], 'little') | (len(data) & 255) << 56):
        d ^= word
        turn()
        a ^= word
    c ^= 255
    for _ in range(3):
        turn()
    return a ^ b ^ c ^ d


# Python's own hash of bytes is the same sum where PYTHONHASHSEED is 0, and much faster
IS_HASH = hash(b'abc') & MASK == 0xc03bc3a0042630f2


def sum_of(data):
    """The sum of some bytes, one or more, as a seal is written."""
    return (hash(bytes(data)) & MASK if IS_HASH else plain_sum(data)).to_bytes(SEAL, 'big')


class Header(NamedTuple):
    """The header of a file of a sealed log."""
    block_size: int
    log_bytes: int
    generation: int = 1
    salt: int = 0
    link: bytes = bytes(SEAL)
    name: bytes = bytes(16)

    def head(self):
        """Its bytes, without its seal."""
        numbers = ((self.block_size, 4), (self.log_bytes, 4), (0, 4), (self.generation, 8), (self.salt, 8))
        return SEALED + b''.join(number.to_bytes(size, 'big') for number, size in numbers) + self.link + self.name

    def spelled(self):
        return self.head() + sum_of(self.head())


def read_header(file):
    """The header that begins a file, with its seal, or None."""
    head = file[:HEADER - SEAL]
    if file[:4] != SEALED or file[12:16] != bytes(4) or len(file) < HEADER or sum_of(head) != file[HEADER - SEAL:HEADER]:
        return None
    numbers = [int.from_bytes(head[at:at + size], 'big') for at, size in ((4, 4), (8, 4), (16, 8), (24, 8))]
    return Header(*numbers, bytes(head[32:40]), bytes(head[40:56]))


def sealed(head, before, texts):
    """Texts one behind another, each with its seal, and the last seal."""
    parts = []
    for text in texts:
        before = sum_of(head + before + text)
        parts += [text, before]
    return b''.join(parts), before


class SealedFile(NamedTuple):
    """What is read of a file of a sealed log: its header, where each text begins and its items, the place where the last seal ends, and that seal."""
    header: Header
    texts: list
    end: int
    last: bytes


def read_sealed(file):
    """The texts of a file of a sealed log, up to the first place where none with its seal stands; None where no header begins the file, or nothing stands behind it: a file
    that was emptied may have got back, of old bytes, what it had in front."""
    header = read_header(file)
    if header is None or len(file) <= HEADER:
        return None
    head, last, at, texts = file[:HEADER - SEAL], file[HEADER - SEAL:HEADER], HEADER, []
    while True:
        try:
            size, items, end = read_text(file, at)
        except (EOFError, Broken):
            break
        due = sum_of(head + last + file[at:end])
        if file[end:end + SEAL] != due:
            break
        texts.append((at, size, items))
        at, last = end + SEAL, due
    return SealedFile(header, texts, at, last)


def without_seals(file):
    """The texts of a file with a header, whatever stands in the place of their seals, and what stands behind them."""
    at, texts = HEADER, []
    try:
        while True:
            end = read_text(file, at)[2]
            texts.append(file[at:end])
            at = end + SEAL
    except (EOFError, Broken):
        return b''.join(texts) + file[at:]


def has_later(file, end):
    """Whether behind a place of a sealed file a text stands with the seal that is due behind the 8 bytes before it."""
    head, at = file[:HEADER - SEAL], file.find(b'XCP', end + SEAL)
    while at >= 0:
        try:
            stop = read_text(file, at)[2]
            if sum_of(head + file[at - SEAL:stop]) == file[stop:stop + SEAL]:
                return True
        except (EOFError, Broken):
            pass
        at = file.find(b'XCP', at + 1)
    return False


def is_torn_end(file, end):
    """Whether what stands behind the texts of a file may be what a crash left of a text that was not synced."""
    return len(file) - end <= LONGEST_REST and not has_later(file, end)


def read_two(one, other):
    """The files of a sealed log, the older one first, as they are read: none, one or both. Broken where they are no log that a crash leaves."""
    found = [(file, read_sealed(file)) for file in (one, other)]
    files = sorted(((file, it) for file, it in found if it), key=lambda it: it[1].header.generation)
    if any(it is None and len(file) > HEADER for file, it in found):
        raise Broken(0)
    if len(files) == 2:
        (_, older), (_, newer) = files
        if newer.header != older.header._replace(generation=older.header.generation + 1, link=older.last):
            raise Broken(older.end)
    if files and not is_torn_end(files[-1][0], files[-1][1].end):
        raise Broken(files[-1][1].end)
    return [it for _, it in files]


# ---- a plain recovery

def replay(log, home):
    """What recovery is to make of a home device, and what it is to print, of a log without seals. Each text says what the first one says of the size of a block."""
    texts, at = [], 0
    while at < len(log):
        try:
            size, items, end = read_text(log, at)
        except EOFError:
            break
        if texts and size != texts[0][1]:
            raise Broken(at)
        texts.append((at, size, items))
        at = end
    return replayed(texts, len(log) - at, home)


def replay_two(one, other, home):
    """The same of a log in two files, either of which may be empty or have a header."""
    if not read_header(one) and not read_header(other):
        return replay(one, home)
    files = read_two(one, other)
    if not files:
        return replayed([], 0, home)
    newest = max((one, other), key=lambda file: read_header(file).generation if len(file) > HEADER and read_header(file) else -1)
    return replayed([text for file in files for text in file.texts], len(newest) - files[-1].end, home)


def replayed(texts, rest, home):
    """A home device with texts laid over it, and what is printed of that; so many bytes stand behind them."""
    gathered, said = {}, texts[0][1] if texts else None
    for _, _, items in texts:
        for block, chunks in items.items():
            if chunks:
                gathered.setdefault(block, {}).update(chunks)
            else:
                gathered.pop(block, None)
    home, size = bytearray(home), said or BLOCK
    for block, chunks in gathered.items():
        home.extend(bytes(max(0, (block + 1) * size - len(home))))
        for chunk, content in chunks.items():
            first = block * size + chunk * CHUNK
            home[first:first + CHUNK] = content
    return bytes(home), f'recovered {len(texts)} texts {len(gathered)} blocks\n' + f'rest {rest}\n' * (rest > 0)
