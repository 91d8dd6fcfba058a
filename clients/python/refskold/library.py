"""The C library by ctypes: its functions with the types of `refskold.h`, and its errors."""
import ctypes
import ctypes.util
import functools
import os

# REFSKOLD_VERSION of the header that these types are of
VERSION = 5
BLOCK_BYTES = 4096
WORDS = {name: word for word, name in enumerate(
    'alloc get read view log hold unhold relse join release inval commit roll cancel force force_to push shutdown freeze thaw unmount'.split())}
COMMITTED_HELD, ABORTED, WAIT, FREE, BEGUN, FAILED = 5, 6, 7, 10, 13, 15
REASONS = ('', 'META_IO_ERROR', 'LOG_IO_ERROR', 'FORCE_UMOUNT', 'CORRUPT_INCORE')
CHECKPOINT, FLUSH = 0, 1
UNASKED, CONTENT, FAILED_READ = 0, 1, 2
ASKS = 1
# bytes of the header of a sealed log, of its head, and of a seal
LOG_HEADER, LOG_HEAD, SEAL = 64, 56, 8


class Handle(ctypes.Structure):
    _fields_ = [('at', ctypes.c_void_p), ('holds', ctypes.c_uint64)]


class Request(ctypes.Structure):
    _fields_ = [(name, ctypes.c_uint32) for name in ('word', 'perm', 'unit', 'count', 'first', 'unused')] + [
        (name, ctypes.c_uint64) for name in ('trans', 'block', 'number')]


class Reply(ctypes.Structure):
    _fields_ = [('word', ctypes.c_uint32), ('error', ctypes.c_uint32), ('number', ctypes.c_uint64), ('pieces', ctypes.c_uint32),
                ('held_count', ctypes.c_uint32), ('held', ctypes.c_uint64 * 64)]


class Plan(ctypes.Structure):
    _fields_ = [('count', ctypes.c_uint32), ('unused', ctypes.c_uint32), ('blocks', ctypes.c_uint64 * 8)]


class State(ctypes.Structure):
    _fields_ = [(name, ctypes.c_uint32) for name in (
        'transactions', 'busy', 'idle', 'committed', 'active', 'owed', 'outstanding', 'frozen', 'cost', 'granted', 'used', 'free')] + [
            (name, ctypes.c_uint64) for name in ('flight', 'least')]


class Told(ctypes.Structure):
    _fields_ = [(name, ctypes.c_uint64) for name in ('texts', 'rest', 'blocks', 'size', 'at', 'file', 'older', 'end')]


class Fields(ctypes.Structure):
    _fields_ = [('generation', ctypes.c_uint64), ('salt', ctypes.c_uint64), ('block_size', ctypes.c_uint32), ('log_bytes', ctypes.c_uint32),
                ('link', ctypes.c_ubyte * 8), ('name', ctypes.c_ubyte * 16)]


class Fault(OSError):
    """A call was refused: `errno`, as of each OSError. Of a commit or a roll that gave its leg up `held` are the blocks that stay held."""

    def __init__(self, errno, held=()):
        super().__init__(errno, os.strerror(errno))
        self.held = list(held)


def judged(status, reply=None):
    """A status that is no error."""
    if status < 0:
        raise Fault(-status, reply.held[:reply.held_count] if reply is not None and reply.word == ABORTED else ())
    return status


def typed(library):
    """The library, its functions with their types."""
    mount, reply, room = ctypes.POINTER(Handle), ctypes.POINTER(Reply), ctypes.c_char_p
    told, fields, number = ctypes.POINTER(Told), ctypes.POINTER(Fields), ctypes.POINTER(ctypes.c_uint64)
    u32, u64, size = ctypes.c_uint32, ctypes.c_uint64, ctypes.c_size_t
    library.refskold_abi_version.restype = u32
    for name, arguments in {
        'open': [mount, u32, u32, u64],
        'open_sized': [mount, u32, u32, u64, u32],
        'close': [mount],
        'shut': [mount],
        'stat': [mount, ctypes.POINTER(State)],
        'call': [mount, ctypes.POINTER(Request), room, size, u32, room, size, reply, room, size],
        'take': [mount, u32, number],
        'begin': [mount, u64, reply],
        'piece': [mount, u32, room, size],
        'seal': [mount, room, size],
        'end': [mount, u64, u32, u32, reply],
        'plan': [mount, ctypes.POINTER(Plan)],
        'home': [mount, u32, room, size],
        'flush': [mount, u64, u32, u32, u32, reply],
        'log_feed': [mount, room, size],
        'log_other': [mount],
        'log_end': [mount, told],
        'log_block': [mount, u64, number],
        'log_lay': [mount, u64, room, size],
        'log_close': [mount],
        'log_header': [room, size, fields],
        'log_read': [room, size, fields],
    }.items():
        function = getattr(library, f'refskold_abi_{name}')
        function.argtypes = arguments
        function.restype = None if name in ('close', 'log_close') else ctypes.c_int32
    return library


@functools.lru_cache(maxsize=None)
def load(path=None):
    """The library at a path; without one that of the environment's REFSKOLD_LIBRARY, else the one that the loader finds."""
    path = path or os.environ.get('REFSKOLD_LIBRARY') or ctypes.util.find_library('refskold')
    if not path:
        raise OSError('there is no library refskold: name the file by REFSKOLD_LIBRARY')
    library = ctypes.CDLL(path)
    if library.refskold_abi_version() != VERSION:
        raise OSError(f'{path} is of another version')
    return typed(library)


class Holder:
    """What holds a handle of the library. Used by `with`, it gives back at the end what it holds, which `close` does too."""
    # the export that gives it back
    ends = ''

    def __init__(self, library):
        self._handle = Handle()
        self._library = library or load()

    def __enter__(self):
        return self

    def __exit__(self, *_):
        self.close()

    def __del__(self):
        self.close()

    def close(self):
        """Gives back what is held, whatever it is."""
        if self._handle.holds:
            getattr(self._library, self.ends)(self._handle)
