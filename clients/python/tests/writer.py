"""Recovers a volume, goes on behind its last change with one block after another, and prints each once it is on the log, until it is killed.

    python3 -m tests.writer HOME LOG
"""
import sys

from refskold import Files, Mount

LOG_BYTES, BLOCKS = 65536, 16


def content(number):
    """The block that this change writes, whole."""
    return number.to_bytes(8, 'big') * 512


def main():
    with Files(*sys.argv[1:]) as files:
        files.recover()
        number = max(int.from_bytes(files.read(block)[:8], 'big') for block in range(BLOCKS))
        with Mount(files, LOG_BYTES, BLOCKS) as mount:
            while True:
                number += 1
                trans = mount.alloc(4148)
                mount.get(trans, number % BLOCKS)
                mount.log(trans, number % BLOCKS, 0, content(number))
                mount.commit(trans)
                mount.force()
                print(number, flush=True)
                if number % 8 == 0:
                    mount.push()


if __name__ == '__main__':
    main()
