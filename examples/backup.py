#!/usr/bin/env python3
"""Copies a volume while `xth serve` serves it, and puts a copy in the place of a volume.

    examples/backup.py ADDRESS SLOT HOMEFILE LOGFILE FOLDER    copies the files of a slot into a new folder, over a session; ADDRESS is PORT or unix:PATH
    examples/backup.py --restore FOLDER HOMEFILE LOGFILE       replaces the files of a volume that is not served by those of a copy

docs/use/operate.md says why the steps come in this order. The status is 0 where all of it was done and synced.
"""
import contextlib
import fcntl
import os
import shutil
import subprocess
import sys
import time

from client import Client, Refused, address

# how often a copy is begun anew while open transactions are committed: each time most of them are over
TRIES = 20


def read(path):
    """The bytes of a file; none of one that is missing."""
    try:
        with open(path, 'rb') as file:
            return file.read()
    except FileNotFoundError:
        return None


def sync(path):
    """Makes a file or a folder safe."""
    place = os.open(path, os.O_RDONLY)
    try:
        os.fsync(place)
    finally:
        os.close(place)


def copy(source, target):
    """Copies a file and syncs it: at once where the file system shares blocks between files, and with the holes that it has."""
    subprocess.run(['cp', '--reflink=auto', '--sparse=auto', '--', source, target], check=True)
    sync(target)


def logs_of(log):
    """The names that the files of a log have, beside each other: in a copy, and in their own place."""
    return {'log': log, 'log.1': log + '.1'}


def write(path, content):
    """Writes a file and syncs it."""
    with open(path, 'wb') as file:
        file.write(content)
        file.flush()
        os.fsync(file.fileno())


def copy_forced(client, mount, home, log, folder):
    """Copies a volume all of whose commits are on the log: whether none came while it was copied."""
    client.force(mount)
    logs = {name: read(path) for name, path in logs_of(log).items()}
    copy(home, os.path.join(folder, 'home'))
    if logs != {name: read(path) for name, path in logs_of(log).items()}:
        return False
    for name, content in logs.items():
        if content is not None:
            write(os.path.join(folder, name), content)
    return True


def copy_frozen(client, mount, home, log, folder):
    """Copies a volume while no transaction is opened."""
    client.request(f'{mount} freeze')
    try:
        for _ in range(TRIES):
            if copy_forced(client, mount, home, log, folder):
                return
        raise TimeoutError('transactions that were open are still committed')
    finally:
        client.request(f'{mount} thaw')


def backup(port, slot, home, log, folder):
    """Copies a volume that is served, into a folder that is gone again where that fails."""
    os.mkdir(folder, 0o700)
    try:
        with Client(port) as client:
            start = time.monotonic()
            copy_frozen(client, f'{slot}.1', home, log, folder)
            frozen = time.monotonic() - start
        sync(folder)
        sync(os.path.dirname(os.path.abspath(folder)))
    except BaseException:
        shutil.rmtree(folder)
        raise
    print(f'backup: slot {slot} was frozen for {frozen:.2f} s', file=sys.stderr)


@contextlib.contextmanager
def locked(*paths):
    """Keeps `xth` off files that are there."""
    with contextlib.ExitStack() as stack:
        for path in paths:
            if os.path.exists(path):
                fcntl.flock(stack.enter_context(open(path, 'rb')), fcntl.LOCK_EX | fcntl.LOCK_NB)
        yield


def restore(folder, home, log):
    """Replaces the files of a volume: all are taken away before the first comes, so that no log is laid over another's home file."""
    places = {name: os.path.realpath(path) for name, path in {'home': home, **logs_of(log)}.items()}
    for path in places.values():
        if os.path.exists(path) and not os.path.isfile(path):
            raise OSError(f'{path} is no plain file')
    with locked(*places.values()):
        for name, path in places.items():
            if os.path.exists(os.path.join(folder, name)):
                copy(os.path.join(folder, name), path + '.restored')
        folders = {os.path.dirname(path) for path in places.values()}
        for path in places.values():
            with contextlib.suppress(FileNotFoundError):
                os.unlink(path)
        for place in folders:
            sync(place)
        for path in reversed(places.values()):
            with contextlib.suppress(FileNotFoundError):
                os.rename(path + '.restored', path)
        for place in folders:
            sync(place)


def main(words):
    try:
        if len(words) == 4 and words[0] == '--restore':
            restore(*words[1:])
        elif len(words) == 5 and address(words[0]) is not None and words[1].isdecimal():
            backup(address(words[0]), *words[1:])
        else:
            print(__doc__.strip(), file=sys.stdout if '--help' in words else sys.stderr)
            return 0 if '--help' in words else 2
    except BlockingIOError:
        print('backup: the volume is in use', file=sys.stderr)
        return 1
    except (OSError, OverflowError, Refused, subprocess.CalledProcessError) as fault:
        print(f'backup: {fault}', file=sys.stderr)
        return 1
    return 0


if __name__ == '__main__':
    sys.exit(main(sys.argv[1:]))
