"""Writes events without chance, for `bench/growth`: two nodes, of which the first enters again and again.

Usage: straight.py KIND PLAN EVENTS COUNT. KIND is `sections`: so many sections, with a read and a write
each; or `records`: so many sections with a write each, and then the second node takes their records by
wants, four at a time. Writes the file of the plan and that of the events.
"""
import json
import sys

PLAN = {"algorithm": "ricart", "nodes": ["a", "b"], "registers": ["count"], "sections": 1000000}


def section(k, has_read):
    """The k-th section of the first node: its request and the reply are parcels 2 k and 2 k + 1."""
    yield ["ask", "a"]
    yield ["deliver", 2 * k]
    yield ["deliver", 2 * k + 1]
    yield ["enter", "a"]
    if has_read:
        yield ["read", "a", "count"]
    yield ["write", "a", "count", k]
    yield ["leave", "a"]


def catching_up(count):
    """The second node asks for what it lacks, as often as it takes to get so many records."""
    first = 2 * count
    for k in range((count + 3) // 4):
        yield ["want", "b", "a"]
        yield ["deliver", first + 2 * k]
        yield ["deliver", first + 2 * k + 1]


def main():
    kind, plan_file, events_file, count = sys.argv[1:]
    count = int(count)
    events = [event for k in range(count) for event in section(k, kind == "sections")]
    if kind == "records":
        events += catching_up(count)
    with open(plan_file, "w") as file:
        json.dump(PLAN, file)
    with open(events_file, "w") as file:
        file.write("[" + ",\n".join(json.dumps(event, separators=(",", ":")) for event in events) + "]\n")
    print(len(events))


if __name__ == "__main__":
    main()
