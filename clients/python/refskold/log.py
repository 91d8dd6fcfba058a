"""A sealed log in two files, LOG and LOG.1, which are written by turns (docs/use/checkpoint-format.md)."""
import ctypes
import errno
import os
import stat

from . import library as abi
from .devices import emptied, made, write_all

NAME_BYTES = 16
PIECE_BYTES = 1 << 20
MASK = (1 << 64) - 1


def sum_of(data):
    """SipHash-1-3 of bytes, with keys of 0, the high byte first."""
    v = [0x736f6d6570736575, 0x646f72616e646f6d, 0x6c7967656e657261, 0x7465646279746573]

    def turned(word, bits):
        return (word << bits | word >> 64 - bits) & MASK

    def mix():
        v[0], v[2] = v[0] + v[1] & MASK, v[2] + v[3] & MASK
        v[1], v[3] = turned(v[1], 13) ^ v[0], turned(v[3], 16) ^ v[2]
        v[0] = turned(v[0], 32) + v[3] & MASK
        v[2] = v[2] + v[1] & MASK
        v[1], v[3] = turned(v[1], 17) ^ v[2], turned(v[3], 21) ^ v[0]
        v[2] = turned(v[2], 32)

    padded = data + bytes(7 - len(data) % 8) + bytes([len(data) & 255])
    for at in range(0, len(padded), 8):
        word = int.from_bytes(padded[at:at + 8], 'little')
        v[3] ^= word
        mix()
        v[0] ^= word
    v[2] ^= 0xff
    for _ in range(3):
        mix()
    return (v[0] ^ v[1] ^ v[2] ^ v[3]).to_bytes(8, 'big')


def name_of(home):
    """The name that a volume's log has: the last one of the home file's path, or of a longer one the first 8 bytes and a sum of all."""
    name = os.fsencode(os.path.basename(home))
    return name.ljust(NAME_BYTES, b'\0') if len(name) <= NAME_BYTES else name[:8] + sum_of(name)


def begins_sealed(path):
    """Whether a file begins as one of a sealed log, and may have a text behind the header."""
    with open(path, 'rb') as file:
        front = file.read(abi.LOG_HEADER + 1)
    return len(front) > abi.LOG_HEADER and front.startswith(b'XCL1')


class SealedLog:
    """Both files, which are made where they are missing, and locked. A life of it begins in files that are empty. With `takes_any` also a log that names another
    volume is read, or of which one file is missing."""

    def __init__(self, path, name, takes_any=False):
        paths = [os.fsdecode(path), os.fsdecode(path) + '.1']
        missing = [place for place in paths if not os.path.exists(place)]
        if len(missing) == 1 and not takes_any and begins_sealed(paths[0] if missing == [paths[1]] else paths[1]):
            raise FileNotFoundError(errno.ENOENT, 'the other file of the log is missing', missing[0])
        self._name, self._takes_any, self._files = name, takes_any, []
        try:
            for place in paths:
                self._files.append(made(place))
                if not stat.S_ISREG(os.fstat(self._files[-1]).st_mode):
                    raise OSError(errno.EINVAL, 'a log is a plain file', place)
        except OSError:
            self.close()
            raise
        # which file is written, its header, whose end is its last seal, its end, and the bytes of its texts alone
        self._newer, self._header, self._end, self._texts = 0, ctypes.create_string_buffer(abi.LOG_HEADER), 0, 0
        self._fields = abi.Fields()

    def close(self):
        """Gives the files back."""
        while self._files:
            os.close(self._files.pop())

    # ---- Read

    def pieces(self, which):
        """What a file has, piece by piece."""
        at = 0
        while piece := os.pread(self._files[which], PIECE_BYTES, at):
            yield piece
            at += len(piece)

    def refuse_others(self, library):
        """Refuses the log of another volume. A file with no more than a header has no text: what it says may be of long before."""
        for file in self._files:
            head, fields = os.pread(file, abi.LOG_HEADER + 1, 0), abi.Fields()
            is_told = len(head) > abi.LOG_HEADER and library.refskold_abi_log_read(head, abi.LOG_HEADER, fields) == 0
            if is_told and bytes(fields.name) != self._name and not self._takes_any:
                raise OSError(errno.EXDEV, f'the log of {bytes(fields.name)!r}, not of {self._name!r}')

    # ---- Written

    def begin(self, size, log_bytes, library):
        """Begins a life, of a mount of this size. That the files are empty is made safe first: who emptied them may have been killed then."""
        if any(os.fstat(file).st_size for file in self._files):
            raise FileExistsError(errno.EEXIST, 'the log is not empty: recover it first')
        self.empty(0)
        self._fields = abi.Fields(salt=int.from_bytes(os.urandom(8), 'big'), block_size=size, log_bytes=log_bytes)
        self._fields.name[:] = self._name
        self._begin_file(0, bytes(abi.SEAL), library)

    def _begin_file(self, which, link, library):
        """Begins a file that is empty. Its header is safe before a text stands behind it."""
        self._fields.generation += 1
        self._fields.link[:] = link
        abi.judged(library.refskold_abi_log_header(self._header, abi.LOG_HEADER, self._fields))
        write_all(self._files[which], self._header.raw, 0)
        os.fdatasync(self._files[which])
        self._newer, self._end, self._texts = which, abi.LOG_HEADER, 0

    def append(self, text, seal, library):
        """Writes the text of a checkpoint, and behind it its seal, which `seal` makes in the header; and syncs both. Where the texts of the file would be
        more than the mount's log it is the other file's turn: of what that has nothing is wanted any more, since the mount never needs more than that,
        and no block counts as home before it is synced."""
        if self._texts + len(text) > self._fields.log_bytes:
            emptied(self._files[1 - self._newer])
            self._begin_file(1 - self._newer, self._header.raw[abi.LOG_HEAD:], library)
        seal(self._header)
        sealed = text + self._header.raw[abi.LOG_HEAD:]
        write_all(self._files[self._newer], sealed, self._end)
        os.fdatasync(self._files[self._newer])
        self._end += len(sealed)
        self._texts += len(text)

    def empty(self, older=None):
        """Empties both files, once all that they say is home: the older one first, since the newer one alone says what came last."""
        older = 1 - self._newer if older is None else older
        emptied(self._files[older])
        emptied(self._files[1 - older])
