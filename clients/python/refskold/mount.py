"""A mount over the C library."""
import ctypes
import errno

from . import library as abi
from .library import Holder, Plan, Reply, Request, State, judged


class Mount(Holder):
    """A mount over devices, whose methods raise OSError where they fail: `read(block)` gives the bytes of a block, `write(block, content)` and `sync()`
    are of the home device. A sealed log, as `Files` has, has `begin_log(size, log_bytes, library)` and `append_sealed(text, seal, library)`, where
    `seal(header)` makes the seal of the text at the end of the header; a bare one has `append(piece)` and `sync_log()`.

    With `size`, of 512 to 4,096, each text of the log says the bytes of a block; without it a block has 4,096. A mount that was not unmounted is ended as by a
    crash: what is committed and not on the log is lost."""
    ends = 'refskold_abi_close'

    def __init__(self, devices, log_bytes, blocks, size=None, last=0, library=None):
        super().__init__(library)
        self._devices = devices
        self._size = size or abi.BLOCK_BYTES
        # a checkpoint that was taken, and for want of memory not begun
        self._taken = None
        if size is None:
            status = self._library.refskold_abi_open(self._handle, last, log_bytes, blocks)
        else:
            status = self._library.refskold_abi_open_sized(self._handle, last, log_bytes, blocks, size)
        judged(status)
        self._is_sealed = hasattr(devices, 'begin_log')
        if self._is_sealed:
            devices.begin_log(self._size, log_bytes, self._library)

    @property
    def shut(self):
        """Why the mount is shut, as 'LOG_IO_ERROR'; '' where it is live."""
        return abi.REASONS[judged(self._library.refskold_abi_shut(self._handle))]

    def stat(self):
        """What the mount tells of itself, by the names of `refskold_state` in refskold.h: transactions, blocks, jobs, and bytes of the log."""
        told = State()
        judged(self._library.refskold_abi_stat(self._handle, told))
        return {name: getattr(told, name) for name, _ in State._fields_}

    def _call(self, word, data=b'', answered=abi.UNASKED, content=b'', room=None, **fields):
        request, reply = Request(word=abi.WORDS[word], **fields), Reply()
        into = room if room is not None else ctypes.create_string_buffer(1)
        status = self._library.refskold_abi_call(self._handle, request, bytes(data), len(data), answered, content, len(content), reply, into,
                                                 0 if room is None else len(room))
        return judged(status, reply), reply

    def alloc(self, unit, count=1, rolls=False):
        """Opens a transaction: its number."""
        return self._call('alloc', unit=unit, count=count, perm=rolls)[1].number

    def get(self, trans, block):
        """Locks a block without its content: it is to be written whole first."""
        self._call('get', trans=trans, block=block)

    def read(self, trans, block):
        """Locks a block with its content, which the home device is asked for where it is not in memory."""
        if self._call('read', trans=trans, block=block)[0] != abi.ASKS:
            return
        try:
            content = self._devices.read(block)
        except OSError:
            self._call('read', answered=abi.FAILED_READ, trans=trans, block=block)
            raise
        self._call('read', answered=abi.CONTENT, content=bytes(content), trans=trans, block=block)

    def view(self, trans, block):
        """What the transaction sees of its block."""
        room = ctypes.create_string_buffer(self._size)
        self._call('view', room=room, trans=trans, block=block)
        return room.raw

    def log(self, trans, block, first, data):
        """Writes bytes in a block of the transaction."""
        self._call('log', data, trans=trans, block=block, first=first)

    def hold(self, trans, block):
        """Lets a block stay locked when the leg ends."""
        self._call('hold', trans=trans, block=block)

    def unhold(self, trans, block):
        """Takes a hold back."""
        self._call('unhold', trans=trans, block=block)

    def relse(self, trans, block):
        """Gives one lock of a block back: whether it is unlocked now."""
        return self._call('relse', trans=trans, block=block)[1].word == abi.FREE

    def join(self, trans, block):
        """Takes a held block into a transaction."""
        self._call('join', trans=trans, block=block)

    def release(self, block):
        """Gives a held block up."""
        self._call('release', block=block)

    def inval(self, trans, block):
        """Gives a block up for good, as a freed one."""
        self._call('inval', trans=trans, block=block)

    def _committed(self, word, trans):
        reply = self._call(word, trans=trans)[1]
        return reply.number, reply.held[:reply.held_count]

    def commit(self, trans):
        """Ends a transaction: the checkpoint that its changes will be in, 0 where there are none, and the blocks that stay held."""
        return self._committed('commit', trans)

    def roll(self, trans):
        """Commits the changes of a transaction that goes on with its next leg: the same."""
        return self._committed('roll', trans)

    def cancel(self, trans):
        """Ends a transaction and gives its changes up, which shuts the mount where there are some: the blocks that stay held."""
        return self._committed('cancel', trans)[1]

    def force(self, number=None):
        """Brings all that is committed to the log, or up to a checkpoint. Fault EIO where the mount is shut, also by the log's failure."""
        word, fields = ('force', {}) if number is None else ('force_to', {'number': number})
        while self._call(word, **fields)[1].word == abi.WAIT:
            self.checkpoint()

    def push(self):
        """Brings home all that is on the log. Of blocks that a device has not taken, some wait: then this ends, and may be called again."""
        self._call('push')
        while self.flush():
            pass

    def shutdown(self):
        """Shuts the mount: it takes no more changes."""
        self._call('shutdown')

    def freeze(self):
        """Keeps transactions from being opened, until `thaw`."""
        self._call('freeze')

    def thaw(self):
        self._call('thaw')

    def unmount(self):
        """Ends a mount of which nothing is left to do."""
        self._call('unmount')

    def _take(self, kind):
        serial = ctypes.c_uint64()
        return serial if judged(self._library.refskold_abi_take(self._handle, kind, serial)) else None

    def checkpoint(self):
        """Does the checkpoint that is owed: whether one was. Where the log fails the mount is shut, and that is raised."""
        serial, reply = self._taken or self._take(abi.CHECKPOINT), Reply()
        if serial is None:
            return False
        self._taken = serial
        judged(self._library.refskold_abi_begin(self._handle, serial, reply))
        self._taken = None
        if reply.word == abi.BEGUN:
            taken, failure = self._append(reply.pieces)
            judged(self._library.refskold_abi_end(self._handle, serial, taken, failure is None, reply))
            if failure is not None:
                raise failure
        return True

    def _append(self, pieces):
        """Writes the checkpoint that is begun to the log, and syncs it: how many pieces that took, and why it failed, if it did."""
        taken = 0
        try:
            if self._is_sealed:
                self._devices.append_sealed(b''.join(map(self._piece, range(pieces))), self._seal, self._library)
                return pieces, None
            for taken in range(pieces):
                self._devices.append(self._piece(taken))
            taken = pieces
            self._devices.sync_log()
        except OSError as failure:
            return taken, failure
        return taken, None

    def _piece(self, index):
        """A piece of the checkpoint that is begun."""
        room = ctypes.create_string_buffer(abi.BLOCK_BYTES)
        length = judged(self._library.refskold_abi_piece(self._handle, index, room, len(room)))
        return room.raw[:length]

    def _seal(self, header):
        """Makes the seal of the checkpoint that is begun, at the end of the header of its log."""
        judged(self._library.refskold_abi_seal(self._handle, header, len(header)))

    def flush(self):
        """Does the flush that is owed: whether one was, and a block of it is home."""
        serial, plan, reply, written = self._take(abi.FLUSH), Plan(), Reply(), 0
        if serial is None:
            return False
        room = ctypes.create_string_buffer(self._size)
        for place in range(judged(self._library.refskold_abi_plan(self._handle, plan))):
            judged(self._library.refskold_abi_home(self._handle, place, room, len(room)))
            written |= self._is_good(self._devices.write, plan.blocks[place], room.raw) << place
        is_synced = self._is_good(self._devices.sync)
        status = self._library.refskold_abi_flush(self._handle, serial, plan.count, written, is_synced, reply)
        judged(0 if status == -errno.EIO else status)  # what a device has not taken waits, and is no fault
        return reply.number > 0

    @staticmethod
    def _is_good(call, *words):
        """Whether a device did something."""
        try:
            call(*words)
        except OSError:
            return False
        return True
