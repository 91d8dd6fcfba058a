"""Files as devices are made of: made, locked, written and emptied."""
import fcntl
import os


def made(path):
    """A file, which is made where it is missing: its descriptor. Its name is safe then, and no other program has it that takes locks as `xth` does."""
    descriptor = os.open(path, os.O_RDWR | os.O_CREAT, 0o666)
    try:
        fcntl.flock(descriptor, fcntl.LOCK_EX | fcntl.LOCK_NB)
        folder = os.open(os.path.dirname(os.path.abspath(path)), os.O_RDONLY)
        try:
            os.fsync(folder)
        finally:
            os.close(folder)
    except OSError:
        os.close(descriptor)
        raise
    return descriptor


def write_all(descriptor, data, offset):
    """Writes all bytes at an offset."""
    view = memoryview(data)
    while view:
        done = os.pwrite(descriptor, view, offset)
        view, offset = view[done:], offset + done


def emptied(descriptor):
    """Empties a file, and makes that safe."""
    os.ftruncate(descriptor, 0)
    os.fsync(descriptor)
