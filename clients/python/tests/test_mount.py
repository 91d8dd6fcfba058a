"""Mounts and recovery over the C library, in files and over devices that fail."""
import errno
import os
import re
import subprocess
import tempfile
import threading
import unittest

from refskold import VERSION, BrokenLog, Fault, Files, Mount, Recovery, recover

LOG_BYTES, BLOCKS = 65536, 1024


class InMemory:
    """Devices in memory, of which calls fail that are named."""

    def __init__(self, size=4096):
        self.size, self.home, self.text, self.failing = size, {}, bytearray(), set()

    def judge(self, name):
        if name in self.failing:
            raise OSError(errno.EIO, name)

    def read(self, block):
        self.judge('read')
        return self.home.get(block, bytes(self.size))

    def write(self, block, content):
        self.judge('write')
        self.home[block] = content

    def append(self, piece):
        self.judge('append')
        self.text += piece

    def sync(self):
        self.judge('sync')

    def sync_log(self):
        self.judge('sync_log')


def change(mount, block, first, data, unit=5000):
    """One transaction: the checkpoint that has it."""
    trans = mount.alloc(unit)
    mount.read(trans, block)
    mount.log(trans, block, first, data)
    return mount.commit(trans)


def seen(mount, block):
    """What a block has."""
    trans = mount.alloc(1)
    mount.read(trans, block)
    try:
        return mount.view(trans, block)
    finally:
        mount.cancel(trans)


class Mounts(unittest.TestCase):
    def refused(self, number, call, *words, **fields):
        with self.assertRaises(Fault) as caught:
            call(*words, **fields)
        self.assertEqual(caught.exception.errno, number)
        return caught.exception

    def test_version(self):
        with open(os.path.join(os.environ['REFSKOLD_INCLUDE'], 'refskold.h'), encoding='utf-8') as header:
            self.assertEqual(int(re.search(r'^#define REFSKOLD_VERSION (\d+)u$', header.read(), re.MULTILINE)[1]), VERSION)

    def test_change(self):
        devices = InMemory()
        with Mount(devices, LOG_BYTES, BLOCKS) as mount:
            self.assertEqual(change(mount, 7, 100, b'hello'), (1, []))
            self.assertEqual(seen(mount, 7)[100:105], b'hello')
            self.assertEqual(devices.text, b'')
            mount.force()
            self.assertEqual(len(devices.text), 176)
            self.assertEqual(devices.home, {})
            mount.push()
            self.assertEqual(devices.home[7], bytes(100) + b'hello' + bytes(3991))
            mount.unmount()
            self.refused(errno.ENODEV, mount.alloc, 5000)

    def test_stat(self):
        log_bytes = LOG_BYTES
        told = dict.fromkeys('transactions busy idle committed active owed outstanding frozen cost granted used flight least'.split(), 0)

        def look(**fields):
            told.update(fields)
            self.assertEqual(mount.stat(), {**told, 'free': log_bytes - told['used']})
        with Mount(InMemory(), log_bytes, BLOCKS) as mount:
            look()
            trans = mount.alloc(5000, count=2, rolls=True)
            look(transactions=1, granted=10000, used=10000)
            mount.cancel(trans)
            change(mount, 7, 100, b'hello')
            look(transactions=0, granted=0, busy=1, committed=1, cost=176, used=176)
            mount.force()
            look(committed=0, cost=0, active=1, least=1)
            mount.push()
            mount.freeze()
            look(busy=0, idle=1, active=0, least=0, used=0, frozen=1)
            mount.shutdown()
            look()
        self.refused(errno.ENODEV, mount.stat)

    def test_sizes(self):
        for size in (512, 1024, 2048, 4096):
            devices = InMemory(size)
            with Mount(devices, LOG_BYTES, BLOCKS, size=size) as mount:
                change(mount, 3, size - 2, b'ab')
                self.assertEqual(seen(mount, 3), bytes(size - 2) + b'ab')
                self.refused(errno.EINVAL, change, mount, 4, size - 1, b'ab')
                mount.force()
            self.assertEqual(len(devices.text), 180)
            told = recover(devices, [devices.text])
            self.assertEqual((told.texts, told.rest, told.size, told.blocks), (1, 0, size, [3]))
            self.assertEqual(devices.home, {3: bytes(size - 2) + b'ab'})
            self.assertRaises(OSError, recover, devices, [devices.text], size=size * 2)
        self.refused(errno.EINVAL, Mount, InMemory(), LOG_BYTES, BLOCKS, size=600)
        self.refused(errno.EINVAL, Mount, InMemory(), LOG_BYTES - 1, BLOCKS)

    def test_roll_and_hold(self):
        devices = InMemory()
        with Mount(devices, LOG_BYTES, BLOCKS) as mount:
            trans = mount.alloc(5000, count=2, rolls=True)
            mount.get(trans, 1)
            mount.log(trans, 1, 0, b'a' * 4096)
            mount.hold(trans, 1)
            self.assertEqual(mount.roll(trans), (1, [1]))
            mount.join(trans, 1)
            mount.log(trans, 1, 1, b'b')
            self.assertEqual(mount.commit(trans), (1, []))
            self.assertEqual(seen(mount, 1), b'ab' + b'a' * 4094)
            self.refused(errno.EINVAL, mount.release, 1)
            mount.force(1)
            self.refused(errno.EINVAL, mount.force, 9)

    def test_locks(self):
        with Mount(InMemory(), LOG_BYTES, BLOCKS) as mount:
            one, other = mount.alloc(5000), mount.alloc(5000)
            mount.read(one, 1)
            self.refused(errno.EAGAIN, mount.read, other, 1)
            mount.read(one, 1)
            self.assertFalse(mount.relse(one, 1))
            self.assertTrue(mount.relse(one, 1))
            mount.read(other, 1)
            self.assertEqual([mount.cancel(trans) for trans in (one, other)], [[], []])
            mount.freeze()
            self.refused(errno.EAGAIN, mount.alloc, 5000)
            self.refused(errno.EBUSY, mount.freeze)
            mount.thaw()
            trans = mount.alloc(5000)
            mount.read(trans, 2)
            mount.hold(trans, 2)
            mount.unhold(trans, 2)
            mount.inval(trans, 2)
            mount.commit(trans)
            mount.force()

    def test_shut(self):
        with Mount(InMemory(), LOG_BYTES, BLOCKS) as mount:
            trans = mount.alloc(5000)
            mount.read(trans, 2)
            mount.hold(trans, 2)
            mount.log(trans, 2, 0, b'x')
            self.assertEqual(mount.shut, '')
            mount.shutdown()
            self.assertEqual(mount.shut, 'FORCE_UMOUNT')
            self.assertEqual(self.refused(errno.EIO, mount.commit, trans).held, [2])
            mount.release(2)

    def test_devices_that_fail(self):
        for failing, reason in (('append', 'LOG_IO_ERROR'), ('sync_log', 'LOG_IO_ERROR'), ('read', 'META_IO_ERROR')):
            devices = InMemory()
            with Mount(devices, LOG_BYTES, BLOCKS) as mount:
                trans = mount.alloc(9000)
                mount.read(trans, 1)
                mount.log(trans, 1, 0, b'x')
                devices.failing = {failing}
                if failing == 'read':
                    self.assertRaises(OSError, mount.read, trans, 2)
                else:
                    mount.commit(trans)
                    self.assertRaises(OSError, mount.force)
                    self.refused(errno.EIO, mount.force)
                self.assertEqual(mount.shut, reason)
        for failing in ('write', 'sync'):
            devices = InMemory()
            with Mount(devices, LOG_BYTES, BLOCKS) as mount:
                change(mount, 1, 0, b'x')
                mount.force()
                devices.failing = {failing}
                mount.push()
                self.refused(errno.EBUSY, mount.unmount)
                devices.failing = set()
                mount.push()
                mount.unmount()
            self.assertEqual(devices.home[1][:1], b'x')

    def test_two_threads(self):
        """Two mounts by two threads, each its own."""
        def work(kept):
            devices = InMemory()
            with Mount(devices, LOG_BYTES, BLOCKS) as mount:
                for count in range(200):
                    change(mount, count % 20, 0, bytes([count]))
                    if count % 10 == 9:
                        mount.force()
                        mount.push()
                mount.unmount()
            kept.append(devices.home)
        kept = []
        threads = [threading.Thread(target=work, args=(kept,)) for _ in range(2)]
        for thread in threads:
            thread.start()
        for thread in threads:
            thread.join()
        self.assertEqual(len(kept), 2)
        self.assertEqual(kept[0], kept[1])
        self.assertEqual([kept[0][block][0] for block in range(20)], list(range(180, 200)))

    def test_broken_log(self):
        devices = InMemory()
        with Mount(devices, LOG_BYTES, BLOCKS) as mount:
            for count in range(3):
                change(mount, 1, 0, bytes([count]))
                mount.force()
        text = bytes(devices.text)
        for cut in (0, 1, 175, 176, 300, len(text)):
            told = Recovery([text[:cut]])
            self.assertEqual((told.texts, told.rest), (cut // 176, cut % 176))
        whole, pieces = Recovery([text]), Recovery([text[place:place + 7] for place in range(0, len(text), 7)])
        self.assertEqual((whole.texts, whole.blocks, whole.lay(1, bytes(4096))), (pieces.texts, pieces.blocks, pieces.lay(1, bytes(4096))))
        with self.assertRaises(BrokenLog) as caught:
            Recovery([text[:176] + b'none' + text[180:]])
        self.assertEqual((caught.exception.kind, caught.exception.at), ('broken', 176))


class InFiles(unittest.TestCase):
    def setUp(self):
        folder = tempfile.TemporaryDirectory()
        self.addCleanup(folder.cleanup)
        self.home, self.log = (os.path.join(folder.name, name) for name in ('home', 'log'))

    def test_crash(self):
        """What was forced is there after an end with no order, and no more; `xth` reads the same log."""
        for life, size in enumerate((None, 512)):
            with Files(self.home, self.log, size or 4096) as files:
                files.recover()
                with Mount(files, LOG_BYTES, BLOCKS, size=size, last=life) as mount:
                    change(mount, 5, 10, b'kept')
                    mount.force()
                    change(mount, 5, 20, b'lost')
            dump = subprocess.run([os.environ['XTH'], 'logdump', self.log], stdout=subprocess.PIPE, check=True, text=True)
            self.assertEqual(dump.stdout.splitlines()[0], 'c1 1' if size is None else 'c1 1 512')
            with Files(self.home, self.log, size or 4096) as files:
                told = files.recover()
                self.assertEqual((told.texts, told.blocks), (1, [5]))
                self.assertEqual(files.read(5)[10:24], b'kept' + bytes(10))
            self.assertEqual(os.path.getsize(self.log), 0)

    def test_recovered_by_xth(self):
        """`xth recover` makes of a log what `recover` does."""
        with Files(self.home, self.log) as files, Mount(files, LOG_BYTES, BLOCKS) as mount:
            for block in range(10):
                change(mount, block, 100 * block, bytes([block]) * 300)
            mount.force()
        subprocess.run([os.environ['XTH'], 'recover', self.home, self.log], stdout=subprocess.PIPE, check=True)
        with open(self.home, 'rb') as file:
            by_xth = file.read()
        os.unlink(self.home)
        with Files(self.home, self.log) as files:
            files.recover()
        with open(self.home, 'rb') as file:
            self.assertEqual(file.read(), by_xth)

    def test_locked(self):
        with Files(self.home, self.log):
            self.assertRaises(BlockingIOError, Files, self.home, self.log + 'x')
            self.assertRaises(BlockingIOError, Files, self.home + 'x', self.log)
            ran = subprocess.run([os.environ['XTH'], 'recover', self.home, self.log], stderr=subprocess.PIPE, text=True)
            self.assertEqual((ran.returncode, ran.stderr), (1, f'fault: {self.home}: in use\n'))
        Files(self.home, self.log).close()


if __name__ == '__main__':
    unittest.main()
