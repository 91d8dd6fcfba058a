"""Programs run under the recorder, and what it has noted of them."""
import functools
import os
import struct
import subprocess
from typing import NamedTuple

HEAD = struct.Struct('=IIIIQQQ')
# the most microseconds that a sync waits between its begin and its end
PAUSE = 1500


class Event(NamedTuple):
    """One entry of a record, as record.c explains it."""
    kind: str
    thread: int
    name: str
    data: bytes
    file: tuple
    offset: int


class Unrecorded(Exception):
    """A program changes a file by a call that is not recorded."""


def build(folder):
    """Compiles the recorder: where it is."""
    library = os.path.join(folder, 'record.so')
    source = os.path.join(os.path.dirname(os.path.abspath(__file__)), 'record.c')
    subprocess.run([os.environ.get('CC', 'cc'), '-std=c11', '-O2', '-shared', '-fPIC', '-o', library, source, '-ldl', '-pthread'], check=True)
    return library


def start(recorder, record, folder, words, pause=PAUSE, **how):
    """Starts a program whose calls on the files of a folder are recorded."""
    known = {'LD_PRELOAD': recorder, 'RECORD_TO': record, 'RECORD_OF': os.path.realpath(folder), 'RECORD_PAUSE': str(pause)}
    return subprocess.Popen(words, env=dict(os.environ, **known), **how)


def read(record, folder):
    """The events of a record, in their order. Names are those within the folder, and '' is the folder itself."""
    try:
        with open(record, 'rb') as file:
            content = file.read()
    except FileNotFoundError:
        return []
    at, events, front = 0, [], os.path.realpath(folder)

    @functools.lru_cache(maxsize=None)
    def name_of(given):
        return '' if given == front else os.path.relpath(given, front)

    while at + HEAD.size <= len(content):
        kind, thread, name_length, data_length, device, inode, offset = HEAD.unpack_from(content, at)
        at += HEAD.size
        name, data = content[at:at + name_length].decode(errors='replace'), content[at + name_length:at + name_length + data_length]
        at += name_length + data_length
        if chr(kind) == 'x':
            raise Unrecorded(f'{name}: a call that tools/power_cuts/record.c does not record')
        if chr(kind) == 'r':
            data = name_of(data.decode(errors='replace')).encode()
        events.append(Event(chr(kind), thread, name_of(name) if name else '', data, (device, inode), offset))
    return events
