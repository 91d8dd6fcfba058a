"""Sealed logs in two files: killed, broken off at each call, recovered here and by `xth`, and refused."""
import contextlib
import errno
import os
import shutil
import subprocess
import sys
import tempfile
import unittest
from unittest import mock

from refskold import BrokenLog, Files, Mount
from refskold.log import name_of, sum_of

from .writer import BLOCKS, LOG_BYTES, content

# the texts of whole blocks that one file has before it is the other one's turn, and what each takes in the file
TEXTS = LOG_BYTES // 4144
SEALED = 4144 + 8


def xth(*words):
    """What `xth` prints, and its status."""
    ran = subprocess.run([os.environ['XTH'], *words], stdout=subprocess.PIPE, stderr=subprocess.PIPE, text=True)
    return ran.returncode, ran.stdout + ran.stderr


def write(mount, number):
    """One change that is forced."""
    trans = mount.alloc(4148)
    mount.get(trans, number % BLOCKS)
    mount.log(trans, number % BLOCKS, 0, content(number))
    mount.commit(trans)
    mount.force()


class Logs(unittest.TestCase):
    def setUp(self):
        folder = tempfile.TemporaryDirectory()
        self.addCleanup(folder.cleanup)
        self.folder = folder.name
        self.paths = self.paths_in('volume')
        os.mkdir(os.path.join(self.folder, 'volume'))

    def paths_in(self, name):
        return tuple(os.path.join(self.folder, name, file) for file in ('home', 'log'))

    def copied(self, name, of='volume'):
        """A copy of the folder of a volume."""
        shutil.copytree(os.path.join(self.folder, of), os.path.join(self.folder, name))
        return self.paths_in(name)

    def has(self, least, most, files):
        """Whether a home device has all of the changes up to one of these two."""
        blocks = [files.read(block) for block in range(BLOCKS)]
        return any(blocks == [content(max((n for n in range(1, last + 1) if n % BLOCKS == block), default=0)) for block in range(BLOCKS)]
                   for last in range(least, most + 1))

    def recovers(self, least, most, paths):
        """What is left has one of these states: both that which `recover` makes of it, and that which `xth` does, which is the same."""
        by_xth = self.copied('by_xth', os.path.basename(os.path.dirname(paths[0])))
        status, said = xth('recover', *by_xth, '--cut')
        self.assertEqual(status, 0, said)
        with Files(*paths) as files, Files(*by_xth) as others:
            files.recover()
            self.assertTrue(self.has(least, most, files), f'of {least} to {most} changes')
            self.assertEqual([files.read(block) for block in range(BLOCKS)], [others.read(block) for block in range(BLOCKS)])
        self.assertEqual([os.path.getsize(paths[1] + end) for end in ('', '.1')], [0, 0])
        shutil.rmtree(os.path.dirname(by_xth[0]))

    def test_names(self):
        self.assertEqual([sum_of(data).hex() for data in (b'', b'abc')], ['d1fba762150c532c', 'c03bc3a0042630f2'])
        self.assertEqual(name_of('a/home'), b'home' + bytes(12))
        self.assertEqual(name_of('a/sixteen-bytes.xy'), b'sixteen-bytes.xy')
        self.assertEqual(name_of('a/seventeen-bytes.x'), b'seventee' + sum_of(b'seventeen-bytes.x'))

    def test_killed(self):
        """A writer is killed in the middle, after so many changes, and so is the next one, which recovers what it finds: all that they told is there."""
        for wanted in (1, TEXTS, TEXTS + 1, 3 * TEXTS):
            for _ in range(2):
                with subprocess.Popen([sys.executable, '-m', 'tests.writer', *self.paths], stdout=subprocess.PIPE, text=True) as writer:
                    told = [writer.stdout.readline() for _ in range(wanted)]
                    writer.kill()
                    told += writer.stdout.readlines()
                self.assertEqual(xth('logdump', self.paths[1])[0], 0)
            self.recovers(int(told[-1]), int(told[-1]) + 1, self.paths)

    @contextlib.contextmanager
    def seen(self, told):
        """Notes each call of a device as (what, device). At the beginning and about each turn it keeps a copy of the files in front of the call, with how many
        changes are told then."""
        devices, calls, copies = {}, [], []

        def noted(name, call):
            def at(descriptor, *words):
                if descriptor in devices:
                    calls.append((name, devices[descriptor]))
                    if len(calls) < 8 or any(what == 'empty' for what, _ in calls[-6:]):
                        copies.append((len(told), self.copied(f'copy{len(copies)}')))
                return call(descriptor, *words)
            return at
        names = {'pwrite': 'write', 'ftruncate': 'empty', 'fsync': 'sync', 'fdatasync': 'sync'}
        with contextlib.ExitStack() as stack:
            for name, what in names.items():
                stack.enter_context(mock.patch(f'os.{name}', noted(what, getattr(os, name))))
            yield devices, calls, copies

    def test_broken_off(self):
        """In front of calls of devices the files have what was told; and calls come in the order that keeps it so also where power is lost."""
        told = []
        with Files(*self.paths) as files:
            descriptors = [files._home, *files._log._files]
            files.recover()
            with self.seen(told) as (devices, calls, copies), Mount(files, LOG_BYTES, BLOCKS) as mount:
                devices.update(zip(descriptors, ('home', 0, 1)))
                for number in range(1, 2 * TEXTS + 3):
                    write(mount, number)
                    told.append(number)
                    if number % 8 == 0:
                        mount.push()
                mount.push()
                mount.unmount()
                files.empty_log()
        for last, paths in copies:
            self.recovers(last, last + 1, paths)
        self.ordered(calls)
        self.assertEqual([calls.count(('empty', file)) for file in (0, 1)], [2, 2])

    def ordered(self, calls):
        """No file is emptied over a home device that is not synced; each is synced behind that, and behind the header that is written first."""
        unsynced, headers = set(), set()
        for what, device in calls:
            if what == 'sync':
                unsynced.discard(device)
            elif what == 'empty':
                self.assertNotIn('home', unsynced)
                unsynced.add(device)
                headers.add(device)
            elif device != 'home':
                if device in headers:
                    self.assertNotIn(device, unsynced)
                headers.discard(device)
                self.assertNotIn(device, unsynced)
                unsynced.add(device)
            else:
                unsynced.add(device)

    def left(self, count):
        """Leaves a volume with so many changes that are forced and not home."""
        with Files(*self.paths) as files:
            files.recover()
            with Mount(files, LOG_BYTES, BLOCKS) as mount:
                for number in range(1, count + 1):
                    write(mount, number)
                    if number % 8 == 0:
                        mount.push()

    def test_torn(self):
        """A torn end is no fault; a text that is rotten in the middle is one."""
        self.left(3)
        torn = self.copied('torn')
        os.truncate(torn[1], 64 + 3 * SEALED - 1)
        self.recovers(2, 2, torn)
        with open(self.paths[1], 'r+b') as log:
            log.seek(64 + SEALED + 100)
            log.write(b'rot')
        with Files(*self.paths) as files, self.assertRaises(BrokenLog) as caught:
            files.recover()
        self.assertEqual((caught.exception.kind, caught.exception.at, caught.exception.file), ('rotten', 64 + SEALED, 0))
        self.assertEqual(xth('recover', *self.paths), (3, f'fault {64 + SEALED}\n'))

    def test_others(self):
        """The log of another volume is refused, and one of which a file is missing; both are laid where that is asked."""
        self.left(TEXTS + 1)
        home, log = self.copied('renamed')
        os.rename(home, home + '2')
        with Files(home + '2', log) as files:
            for _ in range(2):
                with self.assertRaises(OSError) as caught:
                    files.recover()
                self.assertEqual(caught.exception.errno, errno.EXDEV)
        self.assertEqual(xth('recover', home + '2', log), (1, "fault: the log of 'home', not of 'home2'\n"))
        with Files(home + '2', log, takes_any=True) as files:
            files.recover()
            self.assertTrue(self.has(TEXTS + 1, TEXTS + 1, files))
        for end in ('', '.1'):
            home, log = self.copied('lost' + end)
            os.unlink(log + end)
            self.assertRaises(FileNotFoundError, Files, home, log)
            self.assertFalse(os.path.exists(log + end))
            Files(home, log, takes_any=True).close()

    def test_bare(self):
        """A bare log of before is recovered, and the next one is sealed."""
        class Bare:
            def __init__(self, path):
                self.log = open(path, 'wb')

            def append(self, piece):
                self.log.write(piece)

            def sync_log(self):
                self.log.flush()

        open(self.paths[0], 'wb').close()
        bare = Bare(self.paths[1])
        with Mount(bare, LOG_BYTES, BLOCKS) as mount, bare.log:
            for number in range(1, 4):
                write(mount, number)
        self.recovers(3, 3, self.copied('bare'))
        self.left(1)
        with open(self.paths[1], 'rb') as log:
            self.assertEqual(log.read(4), b'XCL1')
        self.assertEqual(xth('logdump', self.paths[1])[1].splitlines()[0], 'c1 1')

    def test_not_recovered(self):
        """No mount begins over a log that says something."""
        self.left(1)
        with Files(*self.paths) as files:
            self.assertRaises(FileExistsError, Mount, files, LOG_BYTES, BLOCKS)
            self.assertRaises(OSError, Files, self.paths[0] + 'x', '/dev/null')


if __name__ == '__main__':
    unittest.main()
