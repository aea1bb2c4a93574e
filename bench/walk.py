"""Draws events in which something happens, for `bench/replay`.

Usage: walk.py PLAN EVENTS COUNT SEED [CANCELLED [SETTLED]]. Writes the file of events and prints how many
parcels are sent and how many sections entered. Most events deliver a parcel that is on its way; one in fifty
parcels is lost, and one event in fifty repeats an old one. A node that is idle asks, one that may enter
enters, one that is inside writes and then leaves; where nothing is on its way, nodes tick. CANCELLED, 0
where it is not given, is the chance that a node which waits gives up when its turn comes. Where SETTLED is
given and not 0, one event in so many is a settle, by which a node settles all sections that it knows without
a gap, and one in so many is a want, so that nodes come to know the sections of others.
"""
import json
import os
import random
import sys

sys.path.insert(0, os.path.join(os.path.dirname(os.path.dirname(os.path.abspath(__file__))), "tests"))
from oracle import Member, cores

LOST = 0.02
REPEATED = 0.02
DELIVERED = 0.80


class Walk:
    """A cluster, the parcels that it sent and the events so far."""

    def __init__(self, plan, seed, cancelled, settled):
        self.draw = random.Random(seed)
        self.cancelled = cancelled
        self.gossiped = 2 / settled if settled > 0 else 0  # the chance of a settle or a want
        self.names, self.nodes = plan["nodes"], [Member(core) for core in cores(plan)]
        self.sent, self.flying, self.events = [], [], []
        self.entered, self.has_written = 0, set()

    def happen(self, node, *event):
        """Notes an event and posts the parcels that the node has put out."""
        self.events.append(event)
        for to, parcel in node.core.out:
            self.flying.append(len(self.sent))
            self.sent.append((node.core.me, to, parcel))
        node.core.out = []

    def deliver(self, number):
        sender, to, parcel = self.sent[number]
        self.nodes[to].deliver(sender, parcel)
        self.happen(self.nodes[to], "deliver", number)

    def deliver_some(self):
        """Takes a parcel that is on its way, wherever it stands, and delivers or loses it."""
        at = self.draw.randrange(len(self.flying))
        self.flying[at], self.flying[-1] = self.flying[-1], self.flying[at]
        number = self.flying.pop()
        if self.draw.random() >= LOST:
            self.deliver(number)

    def act(self, node):
        """What this node does next by itself."""
        name = self.names[node.core.me]
        if node.core.phase == "idle":
            node.ask()
            self.happen(node, "ask", name)
        elif node.core.phase == "inside":
            self.be_inside(node, name)
        elif self.cancelled > 0 and self.draw.random() < self.cancelled:
            node.cancel()
            self.happen(node, "cancel", name)
        elif node.core.permitted():
            node.enter()
            self.entered += 1
            self.happen(node, "enter", name)
        elif not self.flying:
            node.tick()
            self.happen(node, "tick", name)

    def be_inside(self, node, name):
        if node.core.me in self.has_written:
            self.has_written.discard(node.core.me)
            node.leave()
            self.happen(node, "leave", name)
        else:
            self.has_written.add(node.core.me)
            node.write("count", self.entered)
            self.happen(node, "write", name, "count", self.entered)

    def gossip(self, node):
        """Settles what this node knows without a gap, or wants what it lacks from some node."""
        name = self.names[node.core.me]
        if self.draw.random() < 0.5:
            number = node.journal.gapless()
            node.settle(number)
            self.happen(node, "settle", name, number)
        else:
            other = self.draw.randrange(len(self.nodes))
            node.want(other)
            self.happen(node, "want", name, self.names[other])

    def step(self):
        if self.gossiped > 0 and self.draw.random() < self.gossiped:
            self.gossip(self.draw.choice(self.nodes))
            return
        chance = self.draw.random()
        if self.flying and chance < DELIVERED:
            self.deliver_some()
        elif self.sent and DELIVERED <= chance < DELIVERED + REPEATED:
            self.deliver(self.draw.randrange(max(0, len(self.sent) - 100), len(self.sent)))
        else:
            self.act(self.draw.choice(self.nodes))


def main():
    plan_file, events_file, count, seed = sys.argv[1:5]
    cancelled, settled = (float(word) for word in (sys.argv[5:] + ["0", "0"][len(sys.argv) - 5:]))
    with open(plan_file) as file:
        walk = Walk(json.load(file), int(seed), cancelled, settled)
    while len(walk.events) < int(count):
        walk.step()
    with open(events_file, "w") as file:
        file.write("[" + ",\n".join(json.dumps(event, separators=(",", ":")) for event in walk.events) + "]\n")
    print(len(walk.sent), walk.entered)


if __name__ == "__main__":
    main()
