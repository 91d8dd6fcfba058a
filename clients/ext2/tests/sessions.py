"""Tools that know nothing of Refskold, over the library to preload: debugfs, and fuse2fs where a file system may be mounted by it."""
import os
import random
import shutil
import socket
import subprocess
import sys
import time

import crashes
import trees
from crashes import Fault, Volume
from power_cuts import cuts, recording

SIZE = 1024
WRITER = os.path.join(os.path.dirname(os.path.abspath(__file__)), 'writer.py')
SECONDS = 120


def over(recorder, preload):
    """What is loaded in front of the C library's own functions, the recorder first."""
    return f'{recorder}:{preload}'


# ---- debugfs

def debugfs_session(recorder, preload, work, dice):
    """A session of debugfs: the files before it, and its events."""
    volume = Volume(os.path.join(work, 'debugfs'), (), SIZE)
    base = {'image': crashes.fresh_image(work, SIZE)}
    volume.put(base)
    commands = ['mkdir /d']
    for number in range(20):
        source = os.path.join(work, f'source{number}')
        cuts.write(source, ('x' * dice.randint(0, 8000)).encode())
        commands.append(f'write {source} /d/f{number}')
    cuts.write(os.path.join(work, 'commands'), '\n'.join(commands).encode())
    os.environ['REFSKOLD_LOG'] = volume.path('log')
    words = ['debugfs', '-w', '-f', os.path.join(work, 'commands'), volume.path('image')]
    events = crashes.record_of(over(recorder, preload), work, volume.folder, words)
    return volume, base, events


def debugfs(count, program, preload, recorder, work, seed):
    """Power cuts of a session of debugfs, all of whose changes are one: they are all there, or none."""
    volume, base, events = debugfs_session(recorder, preload, work, random.Random(f'{seed} debugfs'))
    after = crashes.recovered(volume, program)
    if len(after) != 22:
        raise Fault(f'debugfs has made {len(after)} names')
    if not any(event.kind == 'e' and event.name == 'log' for event in events):
        raise Fault('debugfs wrote no log')
    made = crashes.recorded(volume, base, events, [trees.FRESH, after], [(0, 1)] * len(events))
    seen = set()
    for cut, found in crashes.cuts_of(made, volume, program, recorder, work, seed, range(count)):
        seen.add(found)
        yield cut.kind
    if count > 20 and seen != {0, 1}:
        raise Fault(f'of its states only {seen} were seen')


# ---- fuse2fs

def mounts(work):
    """Whether fuse2fs can mount a file system here, which is tried with nothing loaded in front of it: where it is there, and the device, it may still be forbidden."""
    if not shutil.which('fuse2fs') or not os.access('/dev/fuse', os.R_OK | os.W_OK):
        return False
    volume = Volume(os.path.join(work, 'fuse2fs'), (), SIZE)
    volume.put({'image': crashes.fresh_image(work, SIZE)})
    try:
        Mounted(volume, '', work).end()
    except Fault:
        return False
    return True


def unmount(folder):
    """Unmounts a file system, which others may look at: it is busy then, for a moment."""
    until = time.monotonic() + SECONDS
    while time.monotonic() < until:
        for words in (['umount', folder], ['fusermount', '-u', folder], ['fusermount3', '-u', folder]):
            if shutil.which(words[0]) and subprocess.run(words, stderr=subprocess.DEVNULL).returncode == 0:
                return
        time.sleep(0.1)
    raise Fault(f'{folder} is not unmounted')


class Mounted:
    """A file system that fuse2fs has mounted, recorded."""

    def __init__(self, volume, before, work):
        self.folder, self.record = os.path.join(work, 'mounted'), os.path.join(work, 'record')
        os.makedirs(self.folder, exist_ok=True)
        words = ['fuse2fs', '-f', '-o', 'fakeroot', volume.path('image'), self.folder]
        os.environ['REFSKOLD_LOG'] = volume.path('log')
        self.process = recording.start(before, self.record, volume.folder, words, 0, stdout=subprocess.DEVNULL, stderr=subprocess.DEVNULL)
        until = time.monotonic() + SECONDS
        while not os.path.ismount(self.folder):
            if self.process.poll() is not None or time.monotonic() > until:
                self.process.kill()
                self.process.wait()
                raise Fault('fuse2fs does not mount it')
            time.sleep(0.01)

    def end(self, is_killed=False):
        """Unmounts it, in order or once it was killed."""
        if is_killed:
            self.process.kill()
            self.process.wait()
        unmount(self.folder)
        if self.process.wait(SECONDS) != 0 and not is_killed:
            raise Fault(f'fuse2fs: status {self.process.returncode}')


def written(mounted, recorder, volume, seed):
    """Writes files into it and syncs each, and notes in the record when a sync has returned: how many files there are."""
    said, heard = crashes.listening()
    with said, heard:
        words = [sys.executable, WRITER, mounted.folder, str(seed)]
        process = recording.start(recorder, mounted.record, volume.folder, words, 0, stdin=subprocess.DEVNULL, stdout=said.fileno())
        said.shutdown(socket.SHUT_RD)
        if process.wait(SECONDS) != 0:
            raise Fault('the files are not written')


def fuse_session(recorder, preload, work, seed, is_killed):
    """A session of fuse2fs: the files before it, and its events."""
    volume = Volume(os.path.join(work, 'fuse2fs'), (), SIZE)
    base = {'image': crashes.fresh_image(work, SIZE)}
    volume.put(base)
    mounted = Mounted(volume, over(recorder, preload), work)
    try:
        written(mounted, recorder, volume, seed)
    finally:
        mounted.end(is_killed)
    events = recording.read(mounted.record, volume.folder)
    os.unlink(mounted.record)
    return volume, base, events


def has_files(tree, count):
    """Whether the first so many files are there, each whole; one more may be there in part, as nothing syncs it."""
    return all(tree.get(f'/f{number}', ('', ''))[1] == chr(97 + number % 26) * (100 + 37 * number) for number in range(count))


def fuse2fs(count, program, preload, recorder, work, seed):
    """Power cuts of a session of fuse2fs: the file system is clean, and each file is there whose fsync has returned. One session is killed in its place."""
    volume, base, events = fuse_session(recorder, preload, work, seed, False)
    made = crashes.recorded(volume, base, events, [], [])
    counts = crashes.answers_of(events)[1:]
    if counts[-1] < 10:
        raise Fault(f'{counts[-1]} files were synced')
    for cut, tree in crashes.trees_of(made, volume, program, recorder, work, seed, range(count)):
        if not has_files(tree, counts[cut.event]):
            raise Fault(f'{cut.said}: of {counts[cut.event]} files that were synced one is not there whole; its files are in {crashes.kept(cut.files)}')
        yield cut.kind
    volume, _, events = fuse_session(recorder, preload, work, f'{seed} killed', True)
    if not has_files(crashes.recovered(volume, program), crashes.answers_of(events)[-1]):
        raise Fault('killed: a file that was synced is not there whole')


# ---- what e2tx says of what it can't do

def full(program, work, seed):
    """A full file system: what does not fit is refused, and leaves nothing behind."""
    volume = Volume(os.path.join(work, 'full'), ('-s', '65536'), SIZE)
    volume.put({'image': crashes.fresh_image(work, SIZE, 1)})
    chooser, commands = random.Random(seed), []
    for number in range(300):
        path = f'/f{chooser.randrange(60)}'
        commands.append(('rm', path) if chooser.random() < 0.2 else ('put', path, chr(97 + number % 26) * chooser.randint(0, 60_000)))
    answers, tree = crashes.answers_to(trees.spelled(commands), volume.words(program), work), trees.FRESH
    if len(answers) != len(commands):
        raise Fault(f'a full file system: {len(answers)} answers to {len(commands)} commands')
    for command, answer in zip(commands, answers):
        if answer == 'ok':
            tree = trees.changed(tree, command)
        elif not ('not found' in answer and command[0] == 'rm' or 'Could not allocate' in answer and command[0] == 'put'):
            raise Fault(f'a full file system: {command[:2]} is answered {answer}')
    if sum('Could not allocate' in answer for answer in answers) < 20:
        raise Fault('the file system did not get full')
    if crashes.recovered(volume, program) != tree:
        raise Fault('a full file system has another tree than what was answered')


def refused(words, wanted, **how):
    ran = subprocess.run(words, capture_output=True, text=True, timeout=SECONDS, **how)
    if ran.returncode != 1 or wanted not in ran.stderr:
        raise Fault(f'{words[1:]}: status {ran.returncode}, {ran.stderr!r}, and not {wanted!r}')


def others(program, work):
    """One program at a time has a volume, and a log of another image is left alone."""
    volume = Volume(os.path.join(work, 'others'), (), SIZE)
    volume.put({'image': crashes.fresh_image(work, SIZE)})
    with subprocess.Popen(volume.words(program), stdin=subprocess.PIPE, stdout=subprocess.PIPE, text=True) as process:
        process.stdin.write('put /a hello\nsync\n')
        process.stdin.flush()
        if [process.stdout.readline() for _ in range(2)] != ['ok\n', 'ok\n']:
            raise Fault('it answers something else')
        refused(volume.words(program, 'tree'), 'busy')
        shutil.copy(volume.path('image'), volume.path('other'))
        refused([program, volume.path('other'), volume.path('log'), 'tree'], 'busy')
        process.kill()
    log = cuts.read(volume.path('log'))
    refused([program, volume.path('other'), volume.path('log'), 'tree'], 'another image')
    cuts.write(volume.path('log'), log[:40] + b'?' + log[41:])
    refused(volume.words(program, 'tree'), 'broken')
    cuts.write(volume.path('log'), log)
    tree = trees.changed(trees.FRESH, ('put', '/a', 'hello'))
    if trees.read(subprocess.run([program, '-a', volume.path('other'), volume.path('log'), 'tree'], capture_output=True, text=True).stdout) != tree:
        raise Fault('-a does not lay a log')
    cuts.write(volume.path('log'), log)
    if crashes.recovered(volume, program) != tree:
        raise Fault('what was synced is not there')
