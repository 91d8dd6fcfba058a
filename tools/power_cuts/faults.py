"""Faults planted in a record, as a program would make them that syncs too little, too late, or answers too soon. Each must be found.

Of a fault that shows near some events alone these are noted (`planted`), and cut more often.
"""
import bisect

from plain_logs import CHUNK, HEADER, SEAL, SEALED, Broken, read_sealed, read_text
from power_cuts.cuts import is_log
from power_cuts.disk import disks, laid
from power_cuts.history import History


def is_home(record, name):
    return any(place.home == name for place in record.places)


def without(record, is_left_out):
    """A record in which some syncs were never made: those of which this holds, by the number of the event and its name."""
    events = [[part for part in event if not (part.kind in 'be' and is_left_out(number, part.name))] for number, event in enumerate(record.events)]
    return record._replace(events=events)


def log_sync(record):
    """No sync of a log is made."""
    return without(record, lambda _, name: is_log(record, name))


def home_sync(record):
    """No sync of a home file is made."""
    return without(record, lambda _, name: is_home(record, name))


def folder_sync(record):
    """The folder of files that were made is not synced."""
    return without(record, lambda _, name: name == '')


def last_emptyings(record, place):
    """Of each file of a log the number of the event that empties it for good, in their order: no text is written behind it."""
    last = {}
    for number, event in enumerate(record.events):
        for part in event:
            if place.is_log(part.name) and part.kind in 'tw':
                last[part.name] = number if part.kind == 't' else None
    return sorted((number, name) for name, number in last.items() if number is not None)


def emptied_first(record):
    """Each log is emptied, and that is synced, before the last sync of its home file, and not behind it."""
    events, planted = [list(event) for event in record.events], []
    for place in record.places:
        begun = last = None
        for_good = last_emptyings(record, place) if record.has_seals else ()
        for number, event in enumerate(record.events):
            for part in event:
                if part.name == place.home and part.kind == 'b':
                    begun = number
                elif part.name == place.home and part.kind == 'e':
                    last = begun
                elif place.is_log(part.name) and part.kind == 't' and last is not None and (not record.has_seals or (number, part.name) in for_good):
                    move(record, events, number, part.name, last)
                    planted.append(last)
    return record._replace(events=events, planted=planted)


def move(record, events, number, log, to):
    """Moves the emptying of a log with its sync in front of another event."""
    moved = []
    for later in range(number, len(events)):
        parts = [part for part in record.events[later] if part.name == log and part.kind in 'tbe']
        for part in parts:
            events[later].remove(part)
        moved += parts
        if any(part.kind == 'e' for part in parts):
            break
    events[to] = moved + events[to]


def older_last(record):
    """Of two files of a log that are emptied the older one is emptied last, so that its texts stand there alone for a while."""
    events, planted = [list(event) for event in record.events], []
    for place in record.places:
        if are_older_alone(record, place):
            (first, _), (second, name) = last_emptyings(record, place)
            move(record, events, second, name, first)
            planted.append(first)
    return record._replace(events=events, planted=planted)


def are_older_alone(record, place):
    """Whether two files of a log are emptied, and the texts of the older one would be seen were they recovered alone: the newer ones changed what these have."""
    for_good = last_emptyings(record, place)
    if len(for_good) < 2:
        return False
    first, name = for_good[0]
    disk = next(disk for number, disk in disks(record.base, record.events) if number + 1 == first)
    older = read_sealed(bytes(disk.files[name].whole()))
    if not older:
        return False
    home = laid_again(disk.files[place.home].whole(), place.size, [items for _, _, items in older.texts])
    return any(history.found(home, first)[0] is None for history in place.histories)


def laid_again(home, size, texts):
    """A home device over which texts were laid once more, but for what a later one of them cancels."""
    pieces = {}
    for items in texts:
        for block, chunks in items.items():
            pieces[block] = {**pieces.get(block, {}), **chunks} if chunks else {}
    again = bytearray(home)
    for block, chunks in pieces.items():
        for chunk, data in chunks.items():
            laid(again, block * size + chunk * CHUNK, data)
    return bytes(again)


def seal_unread(record):
    """Texts are taken that have no seal."""
    return record._replace(is_unsealed=True)


def texts_of(record, log):
    """Of each text that a file of a log was written: the events with which it begins and ends, and its blocks."""
    content, begins, at = b'', [], 0
    for number, event in enumerate(record.events):
        for part in event:
            if part.name != log or part.kind not in 'tw':
                continue
            if part.kind == 't':
                content, begins, at = b'', [], 0
                continue
            begins.append((len(content), number))
            content = content[:part.offset] + part.data if record.has_seals else content + part.data
            front = HEADER * (content[:4] == SEALED)
            try:
                _, items, end = read_text(content, max(at, front))
            except (EOFError, Broken):
                continue
            yield begins[bisect.bisect_right(begins, (at, len(record.events))) - 1][1], number, items
            at = end + SEAL * (front > 0)


def home_first(record):
    """A block is written home before the text that has it, and not behind that."""
    events, planted = [list(event) for event in record.events], []
    for place in record.places:
        texts = sorted(text for log in (place.log, place.log + '.1') for text in texts_of(record, log))
        for number, event in enumerate(record.events):
            for part in [part for part in event if part.name == place.home and part.kind == 'w']:
                begins = [begin for begin, end, items in texts if end < number and items.get(part.offset // place.size)]
                if begins:
                    events[number].remove(part)
                    events[begins[-1]].insert(0, part)
                    planted.append(begins[-1])
    return record._replace(events=events, planted=planted)


def barrier_sync(record):
    """The end mark of a text is written before the rest of it is synced."""
    left_out, planted = set(), []
    for place in record.places:
        sync = []
        for number, event in enumerate(record.events):
            for part in event:
                if part.name != place.log:
                    continue
                if part.kind == 'b':
                    sync = [number]
                elif part.kind == 'e':
                    sync.append(number)
                elif part.kind == 'w' and len(part.data) == 16:
                    left_out.update((at, place.log) for at in sync)
                    planted.append(number)
    return without(record, lambda number, name: (number, name) in left_out)._replace(planted=planted)


def early_answer(record):
    """It is answered that a change is safe where the sync of its log has only begun."""
    places = []
    for place in record.places:
        begins = [number for number, event in enumerate(record.events) if any(part.kind == 'b' and place.is_log(part.name) for part in event)]
        places.append(place._replace(histories=[earlier(history, begins) for history in place.histories]))
    return record._replace(places=places)


def earlier(history, begins):
    """A history in which each promise is made where the last sync before it begins."""
    other = History(history.size, history.count, history.base, history.owned)
    other.commits = list(history.commits)
    for event, number in history.promised:
        place = bisect.bisect_left(begins, event)
        other.told(begins[place - 1] if place else event, number)
    other.close()
    return other


def has(kind, suits):
    """Whether a record has an event of a kind on some file."""
    return lambda record: any(part.kind == kind and suits(record, part.name) for event in record.events for part in event)


# of each fault what it makes of a record, and of which records it makes something else
FAULTS = {
    'log-sync': (log_sync, has('w', is_log)),
    'home-sync': (home_sync, has('t', is_log)),
    'emptied-first': (emptied_first, has('t', is_log)),
    # not of a daemon: what it writes home stands in an earlier text of the same log too, nearly always, and that is laid over what came too early
    'home-first': (home_first, lambda record: not record.daemon and has('m', is_log)(record) and has('w', is_home)(record)),
    'folder-sync': (folder_sync, has('m', is_log)),
    'barrier-sync': (barrier_sync, lambda record: record.has_barrier),
    # of a recovery too, which empties both
    'older-last': (older_last, lambda record: any(are_older_alone(record, place) for place in record.places)),
    'seal-unread': (seal_unread, lambda record: record.has_seals and has('w', is_log)(record)),
    'early-answer': (early_answer, lambda record: any(history.promised for place in record.places for history in place.histories)),
}
