"""What `mx count` and `mx explore --count` have to print, counted from the lines that the second implementation
prints (tests/oracle.py).

Usage: tests/counting.py PLAN EVENTS [--json], or tests/counting.py PLAN SEED STEPS [--json | --brief-json]. With
--brief-json it is what `mx explore --json` has to print.
"""
import sys

import oracle

KINDS = {
    "ricart": ["request", "reply"],
    "maekawa": ["request", "locked", "failed", "inquire", "relinquish", "release"],
    "raymond": ["request", "privilege", "got"],
}

GOSSIP = ["want", "base", "records"]

CAUSES = [
    "not idle",
    "stamps spent",
    "not waiting",
    "not granted",
    "numbers spent",
    "not inside",
    "no register",
    "gap",
    "full",
    "below",
]


class Run:
    """The events of a run with their outcomes, and the parcels, from the lines of the second implementation."""

    def __init__(self, lines):
        self.events = []
        self.parcels = []
        for line in lines:
            if line.startswith("  #"):
                _, way, kind = line.split()[:3]
                self.parcels.append((*way.split(">"), kind))
            elif line[0].isdigit():
                event, outcome = line.split(": ", 1)
                self.events.append((event.split()[1:], outcome))

    def is_letter(self, event):
        """Whether an event delivers a letter from one node to another."""
        if event[0] != "deliver":
            return False
        sender, addressee, kind = self.parcels[int(event[1])]
        return kind not in GOSSIP and sender != addressee

    def letters(self, start, end):
        """The letters delivered after one event and before another."""
        return sum(self.is_letter(event) for event, _ in self.events[start + 1 : end])

    def response_times(self):
        asked, times = {}, {}
        for place, ((kind, *rest), outcome) in enumerate(self.events):
            if outcome.startswith("asked "):
                asked[rest[0]] = place
            elif outcome.startswith("entered "):
                start = asked.pop(rest[0])
                times[start] = self.letters(start, place)
            elif outcome == "cancelled":
                del asked[rest[0]]
        return [times[start] for start in sorted(times)]

    def delays(self):
        left, delays = None, []
        for place, ((kind, *rest), outcome) in enumerate(self.events):
            if outcome.startswith("left "):
                left = (rest[0], place)
            elif outcome.startswith("entered ") and left is not None:
                if left[0] != rest[0]:
                    delays.append(self.letters(left[1], place))
                left = None
        return delays

    def longest_wait(self):
        """The most events from a node's asking to its entering, to its giving up, or to the end."""
        asked, longest = {}, 0
        for place, (event, outcome) in enumerate(self.events):
            if outcome.startswith("asked "):
                asked[event[1]] = place
            elif event[0] in ("enter", "cancel") and not outcome.startswith("refused "):
                longest = max(longest, place - asked.pop(event[1]))
        return max([longest] + [len(self.events) - place for place in asked.values()])

    def of_node(self, node):
        own = [outcome for event, outcome in self.events if event[0] != "deliver" and event[1] == node]
        delivered = [self.parcels[int(event[1])] for event, _ in self.events if event[0] == "deliver"]
        return {
            "sections": sum(outcome.startswith("entered ") for outcome in own),
            "sent": sum(sender == node for sender, _, _ in self.parcels),
            "received": sum(addressee == node for _, addressee, _ in delivered),
            "refused": sum(outcome.startswith("refused ") for outcome in own),
        }

    def counts(self, algorithm):
        """The counts after the first ones: how far each is indented, its name, and its number, text or spread."""
        letters = [kind for sender, addressee, kind in self.parcels if kind not in GOSSIP and sender != addressee]
        sections = sum(outcome.startswith("entered ") for _, outcome in self.events)
        refused = [outcome[len("refused ") :] for _, outcome in self.events if outcome.startswith("refused ")]
        yield 1, "letters", len(letters)
        for kind in KINDS[algorithm]:
            yield 2, kind, letters.count(kind)
        yield 1, "own", sum(kind not in GOSSIP and sender == to for sender, to, kind in self.parcels)
        yield 1, "gossip", sum(kind in GOSSIP for _, _, kind in self.parcels)
        for gossip in GOSSIP:
            yield 2, gossip, sum(kind == gossip for _, _, kind in self.parcels)
        yield 0, "letters for each section", tenths(len(letters), sections)
        yield 0, "refused", len(refused)
        for cause in CAUSES:
            yield 1, cause, sum(text.rstrip("0123456789 ") == cause for text in refused)
        yield 0, "longest wait", self.longest_wait()
        yield 0, "response time", spread(self.response_times())
        yield 0, "synchronization delay", spread(self.delays())


def tenths(total, number):
    return "%d.%d" % divmod(total * 10 // number, 10) if number else None


def spread(numbers):
    return (min(numbers), tenths(sum(numbers), len(numbers)), max(numbers)) if numbers else None


SPREAD = ("least", "mean", "greatest")


def line_text(value):
    if value is None:
        return "none"
    if isinstance(value, tuple):
        return ", ".join(f"{name} {part}" for name, part in zip(SPREAD, value))
    return str(value)


def json_text(value):
    if value is None:
        return "null"
    if isinstance(value, tuple):
        return "{" + ",".join(f'"{name}":{part}' for name, part in zip(SPREAD, value)) + "}"
    return str(value)


def print_lines(head, counts, nodes):
    for line in head:
        print(line)
    for depth, name, value in counts:
        print("  " * depth + name, line_text(value))
    for node, numbers in nodes:
        print(f"{node}: " + ", ".join(f"{name} {number}" for name, number in numbers.items()))
    print("verdict sound")


def print_json(head, counts, nodes):
    print("{" + ",".join(f'"{name}":{json_text(value)}' for name, value in [*head, *counts]) + "}")
    for node, numbers in nodes:
        print("{" + ",".join([f'"node":"{node}"', *(f'"{name}":{number}' for name, number in numbers.items())]) + "}")
    print('{"verdict":"sound"}')


def happened(plan, lines):
    """The lines of events and parcels alone."""
    names = tuple(f"{name}: " for name in plan["nodes"])
    return [line for line in lines if not line.startswith(names) and not line.startswith("verdict")]


def main():
    words = [word for word in sys.argv[1:] if not word.startswith("--")]
    plan = oracle.load(words[0])
    if len(words) == 3:
        printed = []
        oracle.explore(plan, int(words[1]), int(words[2]), printed.append)
        _, lines = oracle.run_drawn(plan, int(words[1]), int(words[2]))
        line_head = printed[:1]
        run = Run(happened(plan, lines))
        sections = sum(outcome.startswith("entered ") for _, outcome in run.events)
        json_head = [("explored", int(words[2])), ("entered", sections), ("sent", len(run.parcels))]
    else:
        lines = []
        if oracle.replay(plan, oracle.load(words[1]), lines.append) is not None:
            sys.exit(1)
        run = Run(happened(plan, lines))
        sections = sum(outcome.startswith("entered ") for _, outcome in run.events)
        json_head = [("events", len(run.events)), ("sections", sections), ("parcels", len(run.parcels))]
        line_head = [f"{name} {number}" for name, number in json_head]
    counts = list(run.counts(plan["algorithm"]))
    nodes = [(node, run.of_node(node)) for node in plan["nodes"]]
    if "--brief-json" in sys.argv:
        print_json(json_head, [], [])
    elif "--json" in sys.argv:
        print_json(json_head, [(name, value) for _, name, value in counts], nodes)
    else:
        print_lines(line_head, counts, nodes)


if __name__ == "__main__":
    main()
