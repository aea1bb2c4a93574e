"""How many turns one node alone takes to have its sections in a live run.

Usage: tests/alone.py PLAN SECTIONS SEED, for a plan of one node.

A station, its links and its worker are modelled here from their rules alone, over the member and the generator
of words of the second implementation (tests/oracle.py). A single node of Maekawa's algorithm sends letters
to itself, so that what its links lose and repeat decides how many turns it takes; and no other thread does.
"""
import sys

import oracle

SLOTS = 4  # of the link from the node to itself
MAX_WAITING = 64
LOST = 16  # of 256 parcels that are taken from a link
REPEATED = 16

REGISTER = 0  # to which the worker adds 1 in each section


class Links:
    """How often each parcel that is taken is delivered, by the words of a seed."""

    def __init__(self, seed):
        self.words = oracle.Words(seed)

    def times(self):
        byte = self.words.next() % 256
        if byte < LOST:
            return 0
        return 2 if byte < LOST + REPEATED else 1


class Station:
    """A node that stands alone, with the parcels that wait in it and the slots of its link."""

    def __init__(self, plan, seed):
        self.member = oracle.Member(oracle.cores(plan)[0])
        self.links = Links(seed)
        self.waiting = []
        self.slots = [None] * SLOTS
        self.left = 0  # how many sections
        self.has_written = False

    def do(self, act, *words):
        """An act of the node; what it sends waits, as far as there is room."""
        outcome = act(*words)
        letters = [letter for _, letter in self.member.core.out]
        self.member.core.out = []
        self.waiting = (self.waiting + letters)[:MAX_WAITING]
        return outcome

    def take(self):
        """Takes the first parcel of the link, and delivers it as often as its fate says."""
        for slot, letter in enumerate(self.slots):
            if letter is not None:
                self.slots[slot] = None
                for _ in range(self.links.times()):
                    self.do(self.member.deliver, 0, letter)
                return True
        return False

    def put_out(self):
        """Puts the first that waits into an empty slot, or behind the others where there is none."""
        letter = self.waiting.pop(0)
        if None in self.slots:
            self.slots[self.slots.index(None)] = letter
        else:
            self.waiting.append(letter)

    def turn(self):
        has_taken = self.take()
        for _ in range(len(self.waiting)):
            self.put_out()
        if not has_taken and not self.waiting:
            self.do(self.member.tick)

    def work(self, sections):
        """A worker's turn. Answers whether the station has its sections."""
        if self.member.core.phase == oracle.IDLE and self.left < sections:
            self.do(self.member.ask)
        self.do(self.member.enter)
        if self.member.core.phase == oracle.INSIDE and not self.has_written:
            value = int(self.do(self.member.read, REGISTER).removeprefix("value "))
            self.do(self.member.write, REGISTER, value + 1)
            self.has_written = True
        if self.has_written:
            self.do(self.member.leave)
            self.left += 1
            self.has_written = False
        self.turn()
        return self.left >= sections and self.member.core.phase != oracle.INSIDE


def turns(plan, sections, seed):
    """How many turns it takes."""
    station = Station(plan, seed)
    count = 1
    while not station.work(sections):
        count += 1
    return count


if __name__ == "__main__":
    print(turns(oracle.load(sys.argv[1]), int(sys.argv[2]), int(sys.argv[3])))
