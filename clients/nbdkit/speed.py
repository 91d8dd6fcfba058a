#!/usr/bin/env python3
"""Writes a second of the plugin, of nbdkit's file plugin, and of qemu-nbd with a raw image (cache=writeback), by fio: a table.

    speed.py [--minutes M] [--seconds S] [--more] [--sync MICROSECONDS] PLUGIN FOLDER

A round measures each cell, one server after another, S seconds each (3 where that is left out): 4k random writes with a sync each, one for 32 and none, at depth 1 and 16, of
one export and of sixteen; with --more also 64k writes and 4k reads. Rounds are made as long as M minutes last (10), one at the least, and each begins with another
server. A cell has the medians of its rounds: how many a second; of a sync, or where there is none of a request, how long 99 of 100 take at most, in milliseconds; and
the microseconds of a processor that the server took for each request, from its start to its end. Each export has 32 MiB, written once before; of the plugin the log
has 4 MiB. With --sync each sync of a file takes so many microseconds more, of each server alike (clients/slow_sync.c). FOLDER is on the disk to be measured: it keeps 1.6 GB of
images. It needs nbdkit, libnbd's programs, qemu-nbd and fio. Interrupted, it prints what it has."""
import argparse
import collections
import json
import os
import statistics
import subprocess
import sys
import time

HERE = os.path.dirname(os.path.abspath(__file__))
SIZE = 32 << 20
WRITES = (('4k writes, a sync each', 'randwrite', 1, '4k'), ('4k writes, a sync for 32', 'randwrite', 32, '4k'), ('4k writes, no sync', 'randwrite', 0, '4k'))
MORE = (('64k writes, a sync for 32', 'randwrite', 32, '64k'), ('4k reads', 'randread', 0, '4k'))
EXPORTS, DEPTHS = (1, 16), (1, 16)
SECONDS = 60  # that a server may take until it serves, and fio longer than it is to


def image(name):
    """A file of random bytes, made once."""
    if not os.path.exists(name) or os.path.getsize(name) != SIZE:
        with open(name, 'wb') as file:
            for _ in range(SIZE >> 20):
                file.write(os.urandom(1 << 20))
    return name


def socket(folder, name):
    path = os.path.join(folder, name)
    if os.path.exists(path):
        os.unlink(path)
    return path


def refskold(plugin, folder, count):
    words = [word for k in range(count) for word in (f'export=e{k}', f'home={image(f"r{k}.home")}', f'log={folder}/r{k}.log')]
    path = socket(folder, 'refskold.socket')
    return [['nbdkit', '-f', '-U', path, plugin, *words]], [f'nbd+unix:///e{k}?socket={path}' for k in range(count)]


def files(_, folder, count):
    os.makedirs('files', exist_ok=True)
    for k in range(count):
        image(f'files/e{k}')
    path = socket(folder, 'file.socket')
    return [['nbdkit', '-f', '-U', path, 'file', 'dir=files']], [f'nbd+unix:///e{k}?socket={path}' for k in range(count)]


def qemu(_, folder, count):
    paths = [socket(folder, f'qemu{k}.socket') for k in range(count)]
    servers = [['qemu-nbd', '-t', '-e', '8', '-f', 'raw', '--cache=writeback', '-k', path, image(f'q{k}.raw')] for k, path in enumerate(paths)]
    return servers, [f'nbd+unix:///?socket={path}' for path in paths]


KINDS = {'this plugin': refskold, 'file plugin': files, 'qemu-nbd raw': qemu}


def fio(uris, seconds, depth, cell):
    """Requests a second, a late one in milliseconds, and how many there were."""
    _, rw, sync, block = cell
    words = ['fio', '--output-format=json', '--ioengine=nbd', '--thread', '--time_based', f'--runtime={seconds}', f'--size={SIZE}', f'--rw={rw}', f'--bs={block}',
             f'--iodepth={depth}', f'--fsync={sync}', '--group_reporting', '--randrepeat=0', '--norandommap']
    for k, uri in enumerate(uris):
        words += [f'--name=j{k}', f'--uri={uri}']
    said = subprocess.run(words, capture_output=True, text=True, check=True, timeout=seconds + SECONDS).stdout
    job = json.loads(said[said.index('{'):])['jobs'][0]
    side = job['read' if 'read' in rw else 'write']
    late = job['sync']['lat_ns'] if sync else side['clat_ns']
    return side['iops'], late.get('percentile', {}).get('99.000000', 0) / 1e6, side['total_ios']


def await_served(uris, processes):
    until = time.monotonic() + SECONDS
    for uri in uris:
        while subprocess.run(['nbdinfo', '--size', uri], capture_output=True, check=False).returncode != 0:
            if time.monotonic() > until or any(process.poll() is not None for process in processes):
                raise OSError(f'{uri} is not served')
            time.sleep(0.02)


def measure(start, plugin, folder, count, seconds, depth, cell):
    """A server from its start to its end, under one cell. What others have written and not synced is on the disk before."""
    servers, uris = start(plugin, folder, count)
    os.sync()
    processes, spent = [subprocess.Popen(words, stderr=subprocess.DEVNULL) for words in servers], 0
    try:
        await_served(uris, processes)
        rate, late, requests = fio(uris, seconds, depth, cell)
    finally:
        for process in processes:
            process.terminate()
        for process in processes:
            used = os.wait4(process.pid, 0)[2]
            process.returncode = 0
            spent += used.ru_utime + used.ru_stime
    return rate, late, spent / max(requests, 1) * 1e6


def measured(asked, cells):
    """What was found of each cell and server, in rounds."""
    found, began, rounds, longest = collections.defaultdict(list), time.monotonic(), 0, 0
    try:
        while rounds == 0 or time.monotonic() + longest < began + asked.minutes * 60:
            at = time.monotonic()
            for place, (count, depth, cell) in enumerate(cells):
                for turn in range(len(KINDS)):
                    name = list(KINDS)[(turn + rounds) % len(KINDS)]
                    try:
                        found[count, depth, cell, name].append(measure(KINDS[name], asked.plugin, asked.folder, count, asked.seconds, depth, cell))
                    except (OSError, ValueError, subprocess.SubprocessError) as fault:
                        print(f'speed: {name}, {cell[0]}, depth {depth}: {fault}', file=sys.stderr, flush=True)
                print(f'speed: round {rounds + 1}, {place + 1} of {len(cells)} cells, load {os.getloadavg()[0]:.1f}', file=sys.stderr, flush=True)
            rounds, longest = rounds + 1, max(longest, time.monotonic() - at)
    except KeyboardInterrupt:
        pass
    return found, rounds


def table(asked, found, cells):
    print('| exports | depth | what | ' + ' | '.join(KINDS) + ' |\n|' + '---|' * (3 + len(KINDS)))
    for count, depth, cell in cells:
        shown = []
        for name in KINDS:
            rounds = found[count, depth, cell, name]
            shown.append('{:,.0f} ({:.2f}; {:.0f})'.format(*map(statistics.median, zip(*rounds))) if rounds else '-')
        print(f'| {count} | {depth} | {cell[0]} | ' + ' | '.join(shown) + ' |', flush=True)


def slower(microseconds):
    """Has the programs that are run from here on take so much longer for each sync of a file; fio syncs none."""
    subprocess.run(['cc', '-shared', '-fPIC', '-O2', '-o', 'slow.so', os.path.join(HERE, '..', 'slow_sync.c')], check=True)
    os.environ.update(LD_PRELOAD=os.path.abspath('slow.so'), SLOW_SYNC=str(microseconds))


def main():
    words = argparse.ArgumentParser(description=__doc__, formatter_class=argparse.RawDescriptionHelpFormatter)
    words.add_argument('--minutes', type=float, default=10)
    words.add_argument('--seconds', type=float, default=3)
    words.add_argument('--more', action='store_true')
    words.add_argument('--sync', type=int, metavar='MICROSECONDS')
    words.add_argument('plugin', type=os.path.abspath)
    words.add_argument('folder', type=os.path.abspath)
    asked = words.parse_args()
    os.makedirs(asked.folder, exist_ok=True)
    os.chdir(asked.folder)
    for count in EXPORTS:  # all images, before anything is measured
        for start in KINDS.values():
            start(asked.plugin, asked.folder, count)
    os.sync()
    if asked.sync:
        slower(asked.sync)
    cells = [(count, depth, cell) for count in EXPORTS for depth in DEPTHS for cell in WRITES + MORE * asked.more]
    before = os.getloadavg()[0]
    found, rounds = measured(asked, cells)
    print(f'{rounds} rounds of {asked.seconds:g} s each; load {before:.1f} before, {os.getloadavg()[0]:.1f} behind; '
          'each cell: requests a second (late, ms; processor, us)\n')
    table(asked, found, cells)


if __name__ == '__main__':
    main()
