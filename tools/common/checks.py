"""Comparisons of a test: how each is counted, and told where it fails; the parts of a test, how long they may take, and what the last line says."""
import collections
import faulthandler
import os
import sys
import threading
import traceback

from common import processes

# how many characters are told of a value, and how much of it may stand in front of the place where it is wrong
MOST, BEFORE = 4000, 20
counts = collections.Counter(passed=0, failed=0)


def check(name, got, wanted):
    """Counts a comparison, and tells it where it fails."""
    if got == wanted:
        counts['passed'] += 1
    else:
        counts['failed'] += 1
        print(f'FAILED {name}: {told(got, wanted)}')


def told(got, wanted):
    """Two values that differ: whole, or where one is long from a little before the first byte or character on that is not the same."""
    texts = repr(got), repr(wanted)
    if max(map(len, texts)) <= MOST:
        return f'got {texts[0]}, wanted {texts[1]}'
    is_plain = type(got) is type(wanted) and isinstance(got, (bytes, str))
    both, shown = ((got, wanted), repr) if is_plain else (texts, str)
    first = len(os.path.commonprefix(both))
    begin = max(0, first - BEFORE)
    got, wanted = (shown(value[begin:begin + MOST])[:MOST] for value in both)
    return f'they differ at {first}, shown from {begin} on: got {got}, wanted {wanted}'


def run(parts, *arguments):
    """Runs parts of a test, each with these arguments. One that breaks off has failed, which is told with its reason, and keeps no other from being run.
    Nothing that it started goes on."""
    for part in parts:
        try:
            part(*arguments)
        except Exception:
            counts['failed'] += 1
            print(f'FAILED {part.__name__}: it breaks off')
            traceback.print_exc(file=sys.stdout)
        finally:
            processes.end_all()


def limit(seconds):
    """Ends a test that is not done within so many seconds, as failed: that is told, with where each thread of it is. Nothing that it started goes on."""
    clock = threading.Timer(seconds, give_up, (seconds,))
    clock.daemon = True
    clock.start()


def give_up(seconds):
    print(f'FAILED: not done within {seconds} seconds', flush=True)
    faulthandler.dump_traceback(all_threads=True)
    processes.end_all()
    os._exit(1)


def ended(name, note=''):
    """Prints the last line of a test: whether it failed, which is its status. One that compared nothing has failed."""
    print(f'{name}: {counts["passed"]} passed, {counts["failed"]} failed{note}')
    return counts['failed'] > 0 or counts['passed'] == 0
