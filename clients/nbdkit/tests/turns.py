#!/usr/bin/env python3
"""Sees that a small write is answered while a large one of another client is under way.

    turns.py URI

The small one is sent once the first block of the large one is there, and once it is answered the last one must not be. Where that is not seen, as where a machine is busy
with something else meanwhile, it is tried again, twenty times: were a large write one turn it would never be seen."""
import sys
import threading

import nbd

AT, LENGTH = 1 << 20, 24 << 20


def is_let_in(large, small, byte):
    """Whether it was seen, of a large write of this byte."""
    block = bytes([byte]) * 4096
    writing = threading.Thread(target=large.pwrite, args=(bytes([byte]) * LENGTH, AT))
    writing.start()
    while small.pread(4096, AT) != block and writing.is_alive():
        pass
    small.pwrite(block, 0)
    is_under_way = small.pread(4096, AT + LENGTH - 4096) != block
    writing.join()
    return is_under_way and small.pread(4096, AT + LENGTH - 4096) == block


def main():
    large, small = nbd.NBD(), nbd.NBD()
    for handle in (large, small):
        handle.connect_uri(sys.argv[1])
    if not any(is_let_in(large, small, byte) for byte in range(1, 21)):
        sys.exit('turns: no small write was let in front of the rest of a large one')


if __name__ == '__main__':
    main()
