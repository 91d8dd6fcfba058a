"""Texts of checkpoints, and what is printed of them."""
import functools

from common.sessions import spell
from plain_logs import BLOCK, CHUNK, spell_text

__all__ = ['BLOCK', 'CHUNK', 'ONE', 'chunks_of', 'printed', 'spell_text']


def chunks_of(content):
    """All chunks of what a block has, as the text of a checkpoint has them."""
    return {first // CHUNK: content[first:first + CHUNK] for first in range(0, len(content), CHUNK)}


# a block one chunk of which is in a text: its first byte is 5
ONE = {7: {1: b'\5'.ljust(CHUNK, b'\0')}}
# one block after another often has the same
spelled = functools.lru_cache(maxsize=1)(spell)


def printed(number, items):
    """What `xth logdump` prints of a text that says no size of a block, and in which each block has chunks."""
    lines = [f'c{number} {len(items)}']
    for block, chunks in sorted(items.items()):
        data = b''.join(chunks[chunk] for chunk in sorted(chunks))
        lines.append(f'{block} {sum(1 << chunk for chunk in chunks):08x} data {spelled(data)}')
    return ''.join(f'{line}\n' for line in lines)
