"""Sessions with a service."""
import os
import subprocess
import tempfile
import time
import unittest

from refskold import Refused, Session, spell
from refskold.session import cost, unspell


class Spelling(unittest.TestCase):
    def test_round(self):
        for data in (b'', b'\1\2', b'\0' * 4096, b'\0\0\0', b'\0\0\0\0\1', bytes(range(256)), b'aaaab' * 30):
            self.assertEqual(unspell(spell(data)), data)
        self.assertEqual(spell(b'\1\2' + bytes(126)), '0102.00*126')

    def test_cost(self):
        self.assertEqual([cost(*place) for place in ((0, 1), (127, 2), (128, 2), (0, 4096))], [180, 308, 180, 4148])


class Sessions(unittest.TestCase):
    def setUp(self):
        folder = tempfile.TemporaryDirectory()
        self.addCleanup(folder.cleanup)
        words = [os.environ['XTH'], 'serve', '--until-stdin-ends', '--port', '0', '--workers', '2', '--sessions', '100',
                 f'0:65536:1024:{folder.name}/home:{folder.name}/log']
        self.service = subprocess.Popen(words, stdin=subprocess.PIPE, stdout=subprocess.PIPE, stderr=subprocess.DEVNULL, text=True)
        self.addCleanup(self.service.stdout.close)
        self.addCleanup(self.service.wait)
        self.addCleanup(self.service.stdin.close)
        self.port = int(self.service.stdout.readline().split()[1])

    def test_change(self):
        with Session(self.port) as session:
            self.assertEqual(session.change('0.1', 7, 128, b'\1\2'), 'c1')
            session.force('0.1')
            self.assertEqual(session.read('0.1', 7), bytes(128) + b'\1\2' + bytes(3966))
            self.assertEqual(session.ask('peek 0'), 'seen 1 live')
            with self.assertRaises(Refused) as caught:
                session.request('0.1 view t9 7')
            self.assertEqual((caught.exception.errno, caught.exception.held), ('EINVAL', []))
            with self.assertRaises(Refused):
                session.change('0.1', 1024, 0, b'x')
            self.assertEqual(session.ask('peek 0'), 'seen 1 live')

    def test_patience(self):
        """What others have is asked again, and that stops."""
        with Session(self.port) as one, Session(self.port, patience=0.5) as other:
            trans = one.begin('0.1', 180)
            one.request(f'0.1 read {trans} 3')
            start = time.monotonic()
            with self.assertRaises(Refused) as caught:
                other.change('0.1', 3, 0, b'x')
            self.assertEqual(caught.exception.errno, 'EAGAIN')
            self.assertGreaterEqual(time.monotonic() - start, 0.5)
            one.request(f'0.1 cancel {trans}')
            self.assertEqual(other.change('0.1', 3, 0, b'x'), 'c1')

    def test_force_that_never_ends(self):
        class Stuck(Session):
            def ask(self, line):
                return 'wait c1' if line.endswith('force') else super().ask(line)
        with Stuck(self.port, patience=0.3) as session, self.assertRaises(TimeoutError):
            session.force('0.1')

    def test_held(self):
        with Session(self.port) as session:
            trans = session.begin('0.1', 180)
            for request in (f'read {trans} 4', f'log {trans} 4 0 01', f'hold {trans} 4', 'shutdown'):
                session.request(f'0.1 {request}')
            with self.assertRaises(Refused) as caught:
                session.again(f'0.1 commit {trans}')
            self.assertEqual((caught.exception.errno, caught.exception.held), ('EIO', [4]))

    def test_end(self):
        """A session that the service ends is told of."""
        with Session(self.port) as session:
            self.assertEqual(session.ask('x' * 8401), 'bad line')
            self.assertRaises(ConnectionError, session.ask, 'peek 0')


if __name__ == '__main__':
    unittest.main()
