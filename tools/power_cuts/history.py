"""What clients committed, and what of it must be on a home device after a power cut."""
import bisect
from typing import NamedTuple


class Commit(NamedTuple):
    """A commit: the number of its checkpoint, the event behind which the program had heard of it, and of each block that it changed the content, or None of one
    that it cancelled."""
    number: int
    heard: int
    blocks: dict


class History:
    """What was committed of a volume, or of blocks of one that a client has to himself. `base` has the content of blocks before it, and None of those of which nothing
    is promised; what is in it not at all is zeros, and so is the rest of the home device. `owned` are the blocks that it speaks of, or None for all."""

    def __init__(self, size, blocks, base=None, owned=None):
        self.size, self.count, self.base, self.owned = size, blocks, dict(base or {}), owned
        self.commits, self.promised = [], []

    def committed(self, number, heard, blocks):
        self.commits.append(Commit(number, heard, blocks))

    def told(self, event, number):
        """At this event it was said that all up to a number is safe."""
        self.promised.append((event, number))

    def close(self):
        """Puts all in order, once all of it is told."""
        self.commits.sort(key=lambda commit: commit.number)
        self.promised.sort()
        most, self.least = 0, []
        for event, number in self.promised:
            most = max(most, number)
            self.least.append((event, most))
        self.numbers = [commit.number for commit in self.commits]
        self.states = [(0, self.base)]

    def must(self, event):
        """The checkpoint that must be there after a power cut behind an event."""
        place = bisect.bisect_right(self.least, (event, float('inf')))
        return self.least[place - 1][1] if place else 0

    def may(self, event):
        """The last that can be there: all commits that it has were heard."""
        unheard = [commit.number for commit in self.commits if commit.heard > event]
        numbers = self.numbers[:bisect.bisect_left(self.numbers, min(unheard))] if unheard else self.numbers
        return max(numbers[-1] if numbers else 0, self.must(event))

    def state(self, number):
        """The contents of blocks once a checkpoint has landed. It is kept for those that are asked for next."""
        while self.states[-1][0] > number:
            self.states.pop()
        known, content = self.states[-1]
        if known < number:
            content = dict(content)
            for commit in self.commits[bisect.bisect_right(self.numbers, known):bisect.bisect_right(self.numbers, number)]:
                content.update(commit.blocks)
            self.states.append((number, content))
        if len(self.states) > 8:
            del self.states[1:-4]
        return content

    def differing(self, home, number):
        """The blocks of a home device that are not as this checkpoint left them."""
        content, nothing = self.state(number), bytes(self.size)
        owned = range(self.count) if self.owned is None else self.owned
        seen = ((block, home[block * self.size:(block + 1) * self.size].ljust(self.size, b'\0')) for block in owned)
        return [block for block, found in seen if content.get(block, nothing) not in (None, found)]

    def found(self, home, event):
        """The checkpoint that a home device has after a power cut behind an event, or None where it has none that it may have; and what is to be told then."""
        must, may, least, told = self.must(event), self.may(event), None, ''
        if self.owned is None and len(home) > self.count * self.size:
            return None, f'the home device has {len(home)} bytes'
        for number in sorted({must, *(number for number in self.numbers if must < number <= may)}):
            wrong = self.differing(home, number)
            if not wrong:
                return number, ''
            if least is None or len(wrong) < least:
                least, told = len(wrong), f'home is as checkpoint {number} left it, but for blocks {wrong[:8]}'
        return None, f'{told}; it is to have a checkpoint from {must} to {may}'
