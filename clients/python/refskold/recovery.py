"""Recovery over the C library: what a log says is laid over a home device."""
import ctypes
import errno

from . import library as abi
from .library import Holder, Told, judged

KINDS = ('', 'broken', 'mixed', 'rotten', 'strange')


class BrokenLog(Exception):
    """A log that no crash leaves: `at` which byte, in which `file` of it, 0 or 1, and `kind`, 'broken', 'mixed', 'rotten' or 'strange', as
    `enum refskold_log_end` says. Nothing was gathered."""

    def __init__(self, kind, at, file):
        super().__init__(f'the log is {kind} at byte {at} of file {file}')
        self.kind, self.at, self.file = kind, at, file


class Recovery(Holder):
    """What the texts of a log say, gathered from its pieces, and from those of its other file, without which it is a bare one. `texts` are as many as there are
    checkpoints, `rest` the bytes behind them, which are no whole text; `blocks` of so many bytes (`size`) are named; `older` is the file that is to be emptied first."""

    ends = 'refskold_abi_log_close'

    def __init__(self, pieces, library=None, other=None):
        super().__init__(library)
        told = Told()
        self._feed(pieces)
        if other is not None:
            judged(self._library.refskold_abi_log_other(self._handle))
            self._feed(other)
        end = judged(self._library.refskold_abi_log_end(self._handle, told))
        if end != 0:
            raise BrokenLog(KINDS[end], told.at, told.file)
        self.texts, self.rest, self.size, self.older = told.texts, told.rest, told.size or abi.BLOCK_BYTES, told.older
        self.blocks = [self._block(place) for place in range(told.blocks)]

    def _feed(self, pieces):
        for piece in pieces:
            judged(self._library.refskold_abi_log_feed(self._handle, bytes(piece), len(piece)))

    def _block(self, place):
        block = ctypes.c_uint64()
        judged(self._library.refskold_abi_log_block(self._handle, place, block))
        return block.value

    def lay(self, block, content):
        """A block with what the log says of it, over what the home device has of it."""
        room = ctypes.create_string_buffer(bytes(content), len(content))
        judged(self._library.refskold_abi_log_lay(self._handle, block, room, len(content)))
        return room.raw


def recover(devices, pieces, size=None, library=None, other=None):
    """Lays a log over a home device, with `read`, `write` and `sync` as of a mount, and syncs it: what was recovered. The log may be emptied then. Where it
    fails, do it again from the first block on. With `size` another one in the log is refused. Of a sealed log `other` are the pieces of its other file."""
    with Recovery(pieces, library, other) as recovery:
        if size is not None and recovery.texts and recovery.size != size:
            raise OSError(errno.EINVAL, f'the log is of blocks of {recovery.size} bytes')
        for block in recovery.blocks:
            devices.write(block, recovery.lay(block, devices.read(block)))
        devices.sync()
        return recovery
