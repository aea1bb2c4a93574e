"""A network of 3 to 7 nodes that loses and reorders messages, or a fair one. A run prints its trace, as `mx` reads it.

The module has what the nodes of all algorithms have alike (`Node`); README.md says how to run a class of one's own.
"""
import argparse
import json
import os
import random
import runpy
import sys

NAMES = "abcdefg"
SECTIONS = 2  # of each node
TURNS = 400  # of a run, for each node, at most


class Node:
    """A node without an algorithm. Each kind of message has a method of its name, which gets the sender and the members."""

    phase = "idle"  # the network also makes it waiting and inside
    flaw = None  # the rule to break

    def __init__(self, name, network):
        self.name, self.network, self.plan = name, network, network.plan
        self.others = [other for other in self.plan["nodes"] if other != name]

    def send(self, receiver, kind, **members):
        self.network.send(self.name, receiver, kind, members)

    def enter(self):
        """The node has entered."""

    def tick(self):
        """Sends again what is unanswered; nothing, if no message can be lost."""


class Trace:
    """One trace of all nodes, which numbers events and parcels."""

    def __init__(self):
        self.events = self.parcels = 0

    def next_parcel(self, sender):
        self.parcels += 1
        return self.parcels - 1

    def note(self, name, event, messages):
        """Prints an event, and then the messages that it sends."""
        for item in {"event": self.events, **event}, *messages:
            print(json.dumps(item, separators=(",", ":")))
        self.events += 1


class Logs:
    """A log for each node, with its own events and messages. Parcels have names by their senders: a1, a2, b1."""

    def __init__(self, folder, names):
        os.makedirs(folder, exist_ok=True)
        self.logs = {name: open(os.path.join(folder, f"{name}.log"), "w", buffering=1) for name in names}
        self.parcels = dict.fromkeys(names, 0)

    def next_parcel(self, sender):
        self.parcels[sender] += 1
        return f"{sender}{self.parcels[sender]}"

    def note(self, name, event, messages):
        """Writes to the node's log; no node can count the sections of all, so these have no number."""
        if event["outcome"] in ("entered", "left"):
            del event["number"]
        for item in event, *messages:
            print(json.dumps(item, separators=(",", ":")), file=self.logs[name])


class Network:
    def __init__(self, plan, output, seed, is_fair):
        self.plan, self.output, self.random, self.is_fair = plan, output, random.Random(seed), is_fair
        self.nodes, self.count, self.sections = {}, 0, 0
        self.under_way, self.sent = [], []  # the parcels that may arrive, and the messages that the current event sends

    def pick(self, items):
        # of the module's calls, only random() gives the same in each version of Python
        return items[int(self.random.random() * len(items))]

    def send(self, sender, receiver, kind, members):
        """Puts a message under way. In a trace, a stamp is two members: its number, and its node."""
        parcel = self.output.next_parcel(sender)
        self.under_way.append((parcel, sender, receiver, kind, members))
        shown = {"parcel": parcel, "from": sender, "to": receiver, "kind": kind}
        for key, value in members.items():
            shown.update({"stamp": value[0], "of": value[1]} if key == "stamp" else {key: value})
        self.sent.append(shown)

    def note(self, name, event):
        self.output.note(name, event, self.sent)
        self.sent = []

    def act(self, name, act, outcome, **members):
        self.note(name, {"act": act, "node": name, **members, "outcome": outcome})

    def taken(self):
        """Takes any parcel from the network; from a fair one, the oldest of its link."""
        taken = self.pick(self.under_way)
        if self.is_fair:
            taken = next(other for other in self.under_way if other[1:3] == taken[1:3])
        self.under_way.remove(taken)
        return taken

    def deliver(self):
        """Delivers a parcel, or loses it: one of eight, if the network is not fair."""
        parcel, sender, receiver, kind, members = self.taken()
        if self.is_fair or self.random.random() >= 1 / 8:
            getattr(self.nodes[receiver], kind)(sender, **members)
            self.note(receiver, {"act": "deliver", "parcel": parcel, "outcome": "delivered"})

    def ask(self, name, node):
        node.phase = "waiting"
        number = node.ask()
        self.act(name, "ask", "asked", number=number)

    def enter(self, name, node):
        # the algorithm does not number its sections, so the trace counts the entries
        self.sections += 1
        node.phase, node.section, node.read = "inside", self.sections, self.count
        node.enter()
        self.act(name, "enter", "entered", number=node.section)
        self.act(name, "read", "value", register="count", value=node.read)

    def leave(self, name, node):
        self.count = node.read + 1
        self.act(name, "write", "written", register="count", value=self.count)
        node.phase, node.left = "idle", node.left - 1
        node.leave()
        self.act(name, "leave", "left", number=node.section, writes=1)

    def turn(self, name, node):
        """The node's next step; if there is none, it may send again what is unanswered."""
        if node.phase == "inside":
            self.leave(name, node)
        elif node.phase == "waiting" and node.may_enter():
            self.enter(name, node)
        elif node.phase == "idle" and node.left:
            self.ask(name, node)
        elif not self.is_fair and self.random.random() < 1 / 8:
            node.tick()
            self.act(name, "tick", "sent", count=len(self.sent))

    def run(self):
        """Runs until each node has had its sections, or the turns are spent."""
        for _ in range(TURNS * len(self.nodes)):
            if not any(node.left for node in self.nodes.values()):
                break
            if self.under_way and self.random.random() < 2 / 3:
                self.deliver()
            else:
                self.turn(*self.pick(list(self.nodes.items())))


def words_of(about, flaws, nodes, is_fair):
    """The words of the command line."""
    listed = "".join(f"\n  {name:16}{rule}" for name, rule in flaws.items())
    raw = argparse.RawDescriptionHelpFormatter
    parser = argparse.ArgumentParser(description=about, epilog=f"flaws:{listed}", formatter_class=raw)
    parser.add_argument("--seed", type=int, default=1, help="draws the order and the losses; %(default)s if absent")
    parser.add_argument("--nodes", type=int, default=nodes, choices=range(3, 8), metavar="N", help="3 to 7; %(default)s if absent")
    parser.add_argument("--fair", action="store_true", default=is_fair, help="lose no message, and keep those of a link in order")
    program = parser.add_mutually_exclusive_group()
    program.add_argument("--flaw", choices=flaws, metavar="NAME", help="break this rule")
    program.add_argument("--program", metavar="FILE", help="run the class Node of this Python file")
    output = parser.add_mutually_exclusive_group()
    output.add_argument("--plan", action="store_true", help="print the plan in place of a run")
    output.add_argument("--logs", metavar="DIR", help="write a log for each node in place of a trace")
    return parser.parse_args()


def plan_of(algorithm, names, **shape):
    """A plan for these names, with the members that describe the algorithm's shape."""
    return {"algorithm": algorithm, "nodes": names, "registers": ["count"], "sections": 100, **shape}


def class_of(path):
    """The class `Node` of a Python file."""
    found = runpy.run_path(path).get("Node")
    return found or sys.exit(f"{path} has no class Node")


def main(algorithm, flaws, plan_of, about, nodes=3, is_fair=False):
    """Runs the program of an algorithm: its class, its flaws, its plan for some names, and what is the default."""
    words = words_of(about, flaws, nodes, is_fair)
    names = list(NAMES[: words.nodes])
    plan = plan_of(names)
    if words.plan:
        print(json.dumps(plan))
        return
    node_of = class_of(words.program) if words.program else algorithm
    output = Logs(words.logs, names) if words.logs else Trace()
    network = Network(plan, output, words.seed, words.fair)
    for name in names:
        node = network.nodes[name] = node_of(name, network)
        node.flaw, node.left = words.flaw, SECTIONS
    network.run()
