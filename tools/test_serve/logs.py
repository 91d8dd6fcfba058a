"""What the logs of a service say of blocks, by what `xth logdump` prints of them."""
import os

from common.checks import check
from common.processes import ran
from common.sessions import unspell
from plain_logs import BLOCK, CHUNK


def read_dump(program, path, size=BLOCK):
    """The items of a log in the order of its texts: (block, chunk map, data), with None for a cancel. Each text says the size of a block."""
    status, out, _ = ran(program, 'logdump', path)
    check(f'logdump of {os.path.basename(path)}: status', status, 0)
    items = []
    for line in out.splitlines():
        words = line.split(' ')
        if line.startswith('c'):
            check(f'logdump of {os.path.basename(path)}: the size of a block', words[2:], [str(size)])
        elif len(words) == 4:
            items.append((int(words[0]), int(words[1], 16), None if words[2] == 'cancel' else unspell(words[3])))
    return items


def plain_reading(items, size=BLOCK):
    """What the texts of a log say of the blocks, the last word of each chunk."""
    blocks = {}
    for block, chunks, data in items:
        content = blocks.setdefault(block, bytearray(size))
        for chunk in range(size // CHUNK):
            if chunks >> chunk & 1:
                content[chunk * CHUNK:(chunk + 1) * CHUNK], data = data[:CHUNK], data[CHUNK:]
    return blocks


def logged(program, service, slot):
    """What the log of a slot says of the blocks."""
    size = service.sizes.get(slot, BLOCK)
    return plain_reading(read_dump(program, service.log(slot), size), size)
