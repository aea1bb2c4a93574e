"""Turns what `mx replay --json` prints into a log with vector clocks, which ShiViz (https://bestchai.bitbucket.io/shiviz)
draws: two lines for each event, its node with the clock, and what happened; a delivery names its parcel. The parser of
ShiViz wants this expression:

    (?<host>\\S+) (?<clock>\\{.*\\})\\n(?<event>.*)

Usage: mx replay PLAN EVENTS --json | ./shiviz
"""
import json

import command
import lines

ACT = ("act", "register", "value", "from", "upto", "parcel")
OUTCOME = ("outcome", "cause", "number")
# How the members of a parcel stand in its text, those that are not here as they are.
PART = {
    "stamp": "{stamp}.{of}",
    "top": "top {top}",
    "grant": "grant {grant}",
    "last": "last {last}",
}
NOT_IN_TEXT = ("parcel", "from", "to", "of")


def words(line, keys):
    return " ".join(line[key] for key in keys if key in line)


def part(line, key):
    if key == "ranges":
        return " ".join(f"{first}..{last}" for first, last in line[key])
    if key == "numbers":
        return " ".join(line[key])
    return PART.get(key, "{%s}" % key).format(**line)


def parcel_text(line):
    """The text of a parcel, as `mx replay` prints it without --json."""
    return " ".join(part(line, key) for key in line if key not in NOT_IN_TEXT)


def addressed(line, sent):
    """The node of an event, the text of the parcel that it delivers, and the clock that the parcel carries."""
    if "parcel" not in line:
        return line["node"], "", {}
    if line["parcel"] not in sent:
        raise command.Fault(f"no event has sent parcel {line['parcel']}; a log is made of what `mx replay --json` prints")
    return sent[line["parcel"]]


def entries(run):
    """The two lines of each event. A parcel has the clock of the event that sent it, and its delivery takes that in."""
    clocks, sent = {}, {}
    for line in run:
        if "act" in line:
            to, text, carried = addressed(line, sent)
            clock = clocks.setdefault(to, {})
            for node, count in carried.items():
                clock[node] = max(count, clock.get(node, 0))
            clock[to] = clock.get(to, 0) + 1
            yield f"{to} {json.dumps(clock)}\n{words(line, ACT)}{text}: {words(line, OUTCOME)}\n"
        elif "kind" in line:
            sent[line["parcel"]] = line["to"], " " + parcel_text(line), dict(clocks.get(line["from"], {}))


def main(given):
    for entry in entries(lines.lines_of(given)):
        command.put(entry.encode(errors="backslashreplace"))


if __name__ == "__main__":
    command.main("shiviz", __doc__, main, reads=True)
