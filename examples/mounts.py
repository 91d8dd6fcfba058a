"""What the mounts of a running service tell of themselves, for programs that look on: `tools/top`, `.status` of `tools/shell`, `examples/exporter.py`.

`looks(session)` asks `peek` of each slot and `stat` of each mount, which changes nothing and asks no device.
"""
import argparse
import dataclasses
import typing

SLOTS = 16


@dataclasses.dataclass(frozen=True)
class Stat:
    """The numbers behind `stat` in their order: open transactions; blocks that are busy and idle; blocks of the commit list and the bytes that its text would
    have; the checkpoint in flight, 0 for none; blocks of the active list and its least number, 0 for none; log bytes granted, in use and free; whether no
    transaction is opened; jobs owed, and jobs posted and not finished."""
    transactions: int
    busy: int
    idle: int
    committed: int
    cost: int
    flight: int
    active: int
    least: int
    granted: int
    used: int
    free: int
    frozen: bool
    owed: int
    outstanding: int


NAMES = [field.name for field in dataclasses.fields(Stat)]


def value(name, word):
    """What a word behind `stat` says; ValueError for one that says nothing."""
    if name != 'frozen':
        return int(word[1:] if name in ('flight', 'least') else word)
    if word not in ('frozen', 'thawed'):
        raise ValueError(f'{word!r} is neither frozen nor thawed')
    return word == 'frozen'


def read_stat(reply):
    """What a mount tells of itself, from its reply; ValueError for another reply."""
    word, *words = reply.split(' ')
    if word != 'stat' or len(words) != len(NAMES):
        raise ValueError(f'{reply!r} is no reply to stat')
    return Stat(*map(value, NAMES, words))


@dataclasses.dataclass(frozen=True)
class Look:
    """One mount: its slot, its life, `live` or why it is shut, and what it tells of itself; none where it was unmounted meanwhile."""
    slot: int
    life: int
    state: str
    stat: typing.Optional[Stat]


def looks(session):
    """Each mount that there is, by its slot."""
    session.say(*(f'peek {slot}' for slot in range(SLOTS)))
    seen = [session.hear().split(' ') for _ in range(SLOTS)]
    mounts = [(slot, int(life), state) for slot, (_seen, life, state) in enumerate(seen) if life != '0']
    if mounts:
        session.say(*(f'{slot}.{life} stat' for slot, life, _state in mounts))
    replies = [session.hear() for _ in mounts]
    return [Look(*mount, None if reply in ('ENODEV', 'ESTALE') else read_stat(reply)) for mount, reply in zip(mounts, replies)]


def address(word):
    """Where a service listens that a word of the command line names, PORT, HOST:PORT or unix:PATH, as a session takes it."""
    host, colon, port = word.rpartition(':')
    if word.startswith('unix:'):
        return (word,)
    if not port.isdecimal() or (colon and not host):
        raise argparse.ArgumentTypeError(f'{word!r} is no PORT, no HOST:PORT and no unix:PATH')
    return (int(port), host.strip('[]')) if colon else (int(port),)
