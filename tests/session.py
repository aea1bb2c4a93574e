"""A model of a session of `mx play`, over tests/oracle.py: what each line prints, as docs/FORMATS.md says it. It
knows no faults but those of lines that find no parcel or a link that is cut, have nothing to take back, or expect another
outcome. Usage: tests/session.py PLAN SCRIPT, which prints what a session of these lines prints.
"""
import json
import sys

import oracle


class Fault(Exception):
    """Why a line does nothing."""


class Session:
    """A cluster that is led line by line."""

    def __init__(self, plan):
        self.plan = plan
        self.names = plan["nodes"]
        # each line that was done, as it was typed, with what happened: events, ["lost", k], ["cut", a, b], ["cut", a], ["heal", ..] of
        # as many nodes, or ["heal"]
        self.done = []
        self.undone = []  # what each undo took back, the last one last
        self.begin()

    def begin(self):
        self.put = []
        self.cluster = oracle.Replay(self.plan, self.put.append)
        self.events = []
        self.outcome = None  # of the last event
        self.gone = set()  # the parcels that are no longer under way
        self.last = {}  # of each link, the parcel that was delivered last
        self.cut = set()  # the links that are cut, as sets of one node or two

    def happen(self, happening):
        if happening[0] == "lost":
            self.gone.add(happening[1])
            self.put.append(f"lost {self.parcel_line(happening[1])}")
            return
        if happening[0] in ("cut", "heal"):
            links = set(self.cut) if len(happening) == 1 else self.links_of(*happening[1:])
            self.cut = self.cut | links if happening[0] == "cut" else self.cut - links
            self.put.append(" ".join([happening[0], *(self.names[end] for end in happening[1:])]))
            return
        if happening[0] == "deliver":
            number = happening[1]
            if number >= len(self.cluster.parcels):
                raise Fault("no such parcel")
            if self.is_held(number):
                raise Fault("the link is cut")
            self.gone.add(number)
            self.last[self.cluster.parcels[number][:2]] = number
        before = len(self.put)
        self.cluster.happen(len(self.events), happening)
        self.outcome = self.put[before].split(": ", 1)[1]
        self.events.append(happening)

    def links_of(self, node, *others):
        return {frozenset((node, other)) for other in others or range(len(self.names))}

    def begin_again(self):
        self.begin()
        for _, made in self.done:
            for happening in made:
                self.happen(happening)

    def under_way(self):
        return [number for number in range(len(self.cluster.parcels)) if number not in self.gone]

    def is_held(self, number):
        return frozenset(self.cluster.parcels[number][:2]) in self.cut

    def between(self, names):
        """The parcels under way, or those from the first named node to the second."""
        link = tuple(self.names.index(name) for name in names)
        return [number for number in self.under_way() if link in ((), self.cluster.parcels[number][:2])]

    def oldest(self, *names):
        if not (found := self.between(names)):
            raise Fault("no such parcel under way")
        return found[0]

    def happenings(self, words):
        """What the words of a line ask for, once; each is found when those before have happened."""
        word, *others = words
        if word in ("deliver", "lose") and others[0] == "all" and len(others) in (1, 3):
            yield from self.happenings_of_all(word, others[1:])
        elif word in ("cut", "heal"):
            yield [word, *(self.names.index(name) for name in others)]
        elif word == "partition":
            yield from self.happenings_of_partition(others)
        elif word == "deliver" and len(words) == 2:
            yield ["deliver", int(others[0])]
        elif word == "deliver":
            yield ["deliver", self.oldest(*others)]
        elif word == "lose" and len(words) == 2:
            if int(others[0]) >= len(self.cluster.parcels):
                raise Fault("no such parcel")
            if int(others[0]) not in self.gone:
                yield ["lost", int(others[0])]
        elif word == "lose":
            yield ["lost", self.oldest(*others)]
        elif word == "again":
            link = tuple(self.names.index(name) for name in others)
            if link not in self.last:
                raise Fault("no such parcel delivered")
            yield ["deliver", self.last[link]]
        else:
            yield [word, *(int(it) if it.isdigit() else it for it in others)]

    def happenings_of_all(self, word, names):
        if word == "lose":
            yield from (["lost", number] for number in self.between(names))
            return
        while found := [number for number in self.between(names) if not self.is_held(number)]:
            yield ["deliver", found[0]]

    def happenings_of_partition(self, words):
        bar = words.index("|")
        left, right = ({self.names.index(name) for name in side} for side in (words[:bar], words[bar + 1 :]))
        for one in sorted(left):
            for other in sorted(right):
                if frozenset((one, other)) not in self.cut:
                    yield ["cut", one, other]

    def expect(self, outcome):
        if self.outcome is None:
            raise Fault("no event yet")
        if self.outcome != outcome:
            raise Fault(f'other outcome: found "{self.outcome}", expected "{outcome}"')
        return []

    def do(self, words, line):
        """Does a line of a script; gives what is printed, or raises a fault, and then nothing has changed."""
        times = 1
        if words[0] == "times":
            times, words = int(words[1]), words[2:]
        before, made = len(self.put), []
        try:
            for _ in range(times):
                for happening in self.happenings(words):
                    self.happen(happening)
                    made.append(happening)
        except Fault:
            self.begin_again()
            raise
        self.done.append((line.strip(), made))
        self.undone = []
        return self.put[before:] or ["nothing to do"]

    def undo(self, count):
        if count > len(self.done):
            raise Fault(f"only {len(self.done)} to take back")
        left, events = len(self.done) - count, len(self.events)
        self.undone.append(self.done[left:])
        del self.done[left:]
        self.begin_again()
        return [f"undone: lines {count}, events {events - len(self.events)}", *self.typed(self.undone[-1])]

    def redo(self):
        if not self.undone:
            raise Fault("no undo to take back")
        lines, events = self.undone.pop(), len(self.events)
        self.done += lines
        self.begin_again()
        return [f"redone: lines {len(lines)}, events {len(self.events) - events}", *self.typed(lines)]

    def typed(self, lines):
        return [f"  {line}" for line, _ in lines]

    def parcel_line(self, number):
        sender, addressee, letter = self.cluster.parcels[number]
        return f"#{number} {self.names[sender]}>{self.names[addressee]} {oracle.text(letter, self.names)}"

    def standing(self, name):
        return self.cluster.members[self.names.index(name)].closing(name, self.plan["registers"])

    def show(self, *named):
        lines = []
        for name in named or self.names:
            member = self.cluster.members[self.names.index(name)]
            lines += [self.standing(name), member.knowledge(self.names)]
        for ends in sorted(sorted(link) for link in self.cut):
            ends = [self.names[end] for end in (ends[0], ends[-1])]
            if not named or named[0] in ends:
                lines.append(f"cut {ends[0]} {ends[1]}")
        for number in self.under_way():
            if not named or self.names[self.cluster.parcels[number][1]] in named:
                lines.append(f"  {self.parcel_line(number)}")
        return lines if named else lines + self.cluster.stuck(self.under_way())

    def listed(self):
        if not self.events:
            return ["[]"]
        texts = [json.dumps(event, separators=(",", ":")) for event in self.events]
        return ["[", *(text + "," for text in texts[:-1]), texts[-1], "]"]

    def scripted(self):
        """The script of what has happened: a line for each happening."""
        return [self.words_of(happening) for _, made in self.done for happening in made]

    def words_of(self, happening):
        word, *others = happening
        if word == "lost":
            word, others = "lose", self.cluster.parcels[others[0]][:2]
        if word in ("lose", "cut"):
            others = [self.names[node] for node in others]
        return " ".join([word, *map(str, others)])

    def answer(self, line):
        """The lines that a line prints."""
        words = line.split("#")[0].split()
        if not words:
            return []
        if words[0] == "show":
            return self.show(*words[1:])
        if words[0] == "undo":
            return self.undo(int(words[1]) if len(words) > 1 else 1)
        if words[0] == "redo":
            return self.redo()
        if words[0] == "mark":
            return [" ".join(words)]
        if words[0] == "events":
            return self.listed()
        if words[0] == "script":
            return self.scripted()
        if words[0] == "expect":
            return self.expect(" ".join(words[1:]))
        return self.do(words, line)

    def close(self):
        return [*(self.standing(name) for name in self.names), "verdict sound"]


def played(plan, lines):
    """What each line prints, in lines with their ends, and what the end prints."""
    session = Session(plan)
    answers = [session.answer(line) for line in lines]
    return ["".join(it + "\n" for it in answer) for answer in [*answers, session.close()]]


def main():
    with open(sys.argv[2], encoding="utf-8") as file:
        sys.stdout.write("".join(played(oracle.load(sys.argv[1]), file.read().splitlines())))


if __name__ == "__main__":
    main()
