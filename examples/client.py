#!/usr/bin/env python3
"""A client of `xth serve`, over the package of clients/python.

    examples/client.py PORT LINE..         says each line, and prints what it is told
    examples/client.py unix:PATH LINE..    the same to a service that listens at a path

As a module: `Client(port)`, or `Client('unix:PATH')`, is one session that asks the same again for as long as it has to wait, and tells that on
standard error after a second.
"""
import os
import sys

sys.path.insert(0, os.path.join(os.path.dirname(os.path.abspath(__file__)), '..', 'clients', 'python'))
from refskold.session import Refused, Session, cost, spell  # noqa: E402

__all__ = ['Client', 'Refused', 'Session', 'address', 'cost', 'spell']
# seconds after which it is told that the same is still asked
TOLD_AFTER = 1


class Client(Session):
    """A session that does not give up. `told` is the line that was told last, with what it was answered."""

    def __init__(self, port, host='127.0.0.1'):
        super().__init__(port, host, patience=None)
        self.told = None

    def again(self, line):
        self.told = None
        return super().again(line)

    def waits(self, line, errno, seconds):
        if self.told is None and seconds > TOLD_AFTER:
            self.told = line, errno
            print(f'client: {line!r} is answered {errno}, and asked again', file=sys.stderr, flush=True)


def address(word):
    """Where a service listens that a word names, a port or unix:PATH; None where it names none."""
    return int(word) if word.isdecimal() else word if word.startswith('unix:') else None


def main(words):
    if len(words) < 2 or address(words[0]) is None:
        print(__doc__.strip(), file=sys.stdout if '--help' in words else sys.stderr)
        return 0 if '--help' in words else 2
    try:
        with Client(address(words[0])) as client:
            for line in words[1:]:
                print(client.ask(line), flush=True)
    except (OSError, OverflowError) as fault:
        print(f'client: {fault}', file=sys.stderr)
        return 1
    except KeyboardInterrupt:
        return 130
    return 0


if __name__ == '__main__':
    sys.exit(main(sys.argv[1:]))
