"""A home device in a file, and its log in two."""
import os

from .devices import made, write_all
from .library import load
from .log import SealedLog, name_of
from .recovery import recover


class Files:
    """A home device and a sealed log in files, LOG and LOG.1, which are made where they are missing, and locked until `close`. A block past the end of the home
    file is zeros. BlockingIOError where another program has one of them. The log of another volume is refused, which OSError EXDEV says, and one of which a
    file is missing (FileNotFoundError), but with `takes_any`."""

    def __init__(self, home, log, size=4096, takes_any=False):
        self.size = size
        self._home = made(home)
        try:
            self._log = SealedLog(log, name_of(home), takes_any)
        except OSError:
            os.close(self._home)
            raise

    def __enter__(self):
        return self

    def __exit__(self, *_):
        self.close()

    def close(self):
        """Gives the files back."""
        os.close(self._home)
        self._log.close()

    def recover(self, library=None):
        """Lays the log over the home file, syncs that, and empties the log: what was recovered. To be called before each mount."""
        library = library or load()
        self._log.refuse_others(library)
        recovery = recover(self, self._log.pieces(0), self.size, library, other=self._log.pieces(1))
        self._log.empty(recovery.older)
        return recovery

    def empty_log(self):
        """Empties the log, once all that it says is home: after a mount was unmounted."""
        self._log.empty()

    def read(self, block):
        """A block of the home file."""
        return os.pread(self._home, self.size, block * self.size).ljust(self.size, b'\0')

    def write(self, block, content):
        """Writes a block of the home file."""
        write_all(self._home, content, block * self.size)

    def sync(self):
        """Syncs the home file."""
        os.fsync(self._home)

    def begin_log(self, size, log_bytes, library):
        """Begins the log of a mount."""
        self._log.begin(size, log_bytes, library)

    def append_sealed(self, text, seal, library):
        """Writes the text of a checkpoint and its seal to the log, and syncs it."""
        self._log.append(text, seal, library)
