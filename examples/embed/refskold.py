"""A small run of a mount over the C library, by the package of clients/python.

    python3 examples/embed/refskold.py LIBRARY

LIBRARY is the shared object, $(tools/lib)/lib/librefskold.so.
"""
import os
import sys

sys.path.insert(0, os.path.join(os.path.dirname(os.path.abspath(__file__)), '..', '..', 'clients', 'python'))
from refskold import Fault, Mount, load  # noqa: E402


class InMemory:
    """Devices in memory."""

    def __init__(self):
        self.home, self.text = {}, bytearray()

    def read(self, block):
        return self.home.get(block, bytes(4096))

    def write(self, block, content):
        self.home[block] = content

    def append(self, piece):
        self.text += piece

    def sync(self):
        pass

    def sync_log(self):
        pass


def main():
    if len(sys.argv) != 2:
        sys.exit(__doc__)
    devices = InMemory()
    with Mount(devices, log_bytes=65536, blocks=1024, library=load(sys.argv[1])) as mount:
        trans = mount.alloc(5000)
        mount.read(trans, 7)
        mount.log(trans, 7, 100, b'hello')
        print('seen:', mount.view(trans, 7)[100:105].decode())
        number, held = mount.commit(trans)
        print(f'checkpoint {number}, {len(held)} held')
        mount.force()
        mount.push()
        print(f'log: {len(devices.text)} bytes, home:', devices.home[7][100:105].decode())
        try:
            mount.commit(trans)
        except Fault as fault:
            print('refused:', fault.strerror)
        mount.unmount()


if __name__ == '__main__':
    main()
