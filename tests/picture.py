"""Reads a picture of `mx picture` back, and compares what it shows with what a replay prints.

Usage: tests/picture.py PLAN PRINTED PICTURE [--from K] [--to K] [--node N] [--letters], where PRINTED is what
`mx replay`, or tests/oracle.py, prints of the same plan and events, or tests/session.py of a script, and the options are
those of the picture; or tests/picture.py PLAN TRACE PICTURE --trace JUDGED .., where JUDGED is what `mx judge` prints of the trace. It prints
each thing that only one of the two has, and is silent where they have the same; and it sees that nothing reaches out of
the page, and that it has nothing but drawing.
"""
import argparse
import itertools
import json
import re
import sys
import xml.etree.ElementTree as xml
from collections import Counter

ROW = 13  # how far apart rows are
ASIDE = 26  # how far the piece of an arrow goes to the side
CUT = 6  # how much shorter a bar is where the event at its end is left out
COLUMNS = 60, 180  # how far apart the lines of nodes are, at least and at most
SPAN = 2000  # how far apart the first and the last line are, at most
GAP = 8  # the room between a text and the next line
NEAR = {"text": 17, "air": 33, "reason": 17}  # how far a text is from its node
NAMED_ROWS = 50  # after how many rows the names of the nodes come again
LONG_ROWS, LONG_NODES = 26, 6  # from how many rows, or nodes, on an arrow is long, so that its text names the sender
EDGE = 60  # the room at each edge for the indices of the events
SVG = "{http://www.w3.org/2000/svg}"
PARTS = "svg title desc style defs marker g path text circle use".split()
TRAITS = """width height viewBox role transform class style id d x y dx dy cx cy r marker-end refX refY
markerWidth markerHeight markerUnits orient href""".split()
ALGORITHMS = {"ricart": "Ricart and Agrawala's", "maekawa": "Maekawa's", "raymond": "Raymond's"}
INKS = {"request": "request", "reply": "grant", "locked": "grant", "privilege": "grant"}
GOSSIP = ["want", "base", "records"]
COUNTS = {"number": "", "hop": "", "top": "top ", "grant": "grant ", "last": "last ", "upto": ""}  # of a message
ARGUMENTS = ["node", "from", "register", "upto", "parcel"]  # of an event in a trace; a value of `write` comes last


class Run:
    """What was printed of a replay: the events, the parcels with the event that sent each, and the numbers of those that a
    script lost, each with the number of events before."""

    def __init__(self, names, lines):
        self.names, self.events, self.parcels, self.losses = names, [], [], []
        for line in lines:
            if event := re.fullmatch(r"(\d+) ((\S+) (.*)): (.*)", line):
                told = f"{event[2]}: {event[5]}"
                self.events.append((event[3], event[4].split(), event[5], told))
            elif parcel := re.fullmatch(r"  #\d+ (\S+)>(\S+) (.*)", line):
                ends = names.index(parcel[1]), names.index(parcel[2])
                self.parcels.append((len(self.events) - 1, *ends, parcel[3]))
            elif lost := re.match(r"lost #(\d+) ", line):
                self.losses.append((len(self.events), int(lost[1])))
        self.arriving = {int(args[0]) for word, args, _, _ in self.events if word == "deliver"}

    def is_overtaken(self, number):
        """Whether a parcel sent later from the same node to the same is delivered."""
        link = self.parcels[number][1:3]
        return any(later > number and self.parcels[later][1:3] == link for later in self.arriving)

    def is_original(self, number):
        """Whether a parcel is a letter that no tick sent again."""
        by, _, _, text = self.parcels[number]
        return not is_gossip(text) and self.events[by][0] != "tick"

    def node_of(self, event):
        word, args, _, _ = event
        return self.parcels[int(args[0])][2] if word == "deliver" else self.names.index(args[0])


class Trace(Run):
    """A trace, whose messages are its parcels, and what `mx judge` prints of it."""

    def __init__(self, names, text, judged):
        super().__init__(names, [])
        self.judged = judged
        is_array = text.lstrip().startswith("[")
        items = json.loads(text) if is_array else [json.loads(line) for line in text.splitlines() if line.strip()]
        for item in items:
            if "act" in item:
                self.events.append(self.event_of(item))
            elif "kind" in item:
                assert item["parcel"] == len(self.parcels)
                self.parcels.append((len(self.events) - 1, names.index(item["from"]), names.index(item["to"]), self.text_of(item)))
        self.arriving = {int(args[0]) for word, args, _, _ in self.events if word == "deliver"} & set(range(len(self.parcels)))
        self.verdict = judged.splitlines()[1]
        self.broken, self.why = None, None
        if broken := re.search(r"^verdict broken at (\d+): (.*)\n(.*)", judged, re.MULTILINE):
            self.broken, self.why = int(broken[1]), f"{broken[2]}, {broken[3]}"

    def is_known(self, index):
        """Whether an event delivers a message that was sent before it."""
        word, args, _, _ = self.events[index]
        return word == "deliver" and int(args[0]) < len(self.parcels) and self.parcels[int(args[0])][0] < index

    @staticmethod
    def text_of(item):
        about = [f"{item['stamp']}.{item['of']}"] if "stamp" in item else []
        return " ".join([item["kind"], *about, *(f"{name}{item[key]}" for key, name in COUNTS.items() if key in item)])

    @staticmethod
    def event_of(item):
        args = [str(item[key]) for key in ARGUMENTS if key in item]
        args += [str(item["value"])] if item["act"] == "write" else []
        values = [item[key] for key in ("cause", "number", "count") if key in item]
        values += [item["value"]] if item["outcome"] == "value" else []
        outcome = " ".join(map(str, [item["outcome"], *values]))
        return item["act"], args, outcome, f"{item['act']} {' '.join(args)}: {outcome}"


class Part:
    """The part of a run that is drawn."""

    def __init__(self, first=0, last=None, node=None, letters=False):
        self.first, self.last, self.node, self.letters = first, last, node, letters

    def has_index(self, index):
        return self.first <= index and (self.last is None or index <= self.last)

    def has_loss(self, place):
        """Whether a loss, before which this many events happened, does not come after the last event."""
        return self.last is None or place <= self.last

    def has_node(self, node):
        return self.node is None or node == self.node

    def is_whole(self):
        return self.first == 0 and self.last is None and self.node is None

    def concerns(self, parcel):
        """Whether a parcel is drawn where the event that sends it is."""
        _, start, to, text = parcel
        return (self.has_node(start) or self.has_node(to)) and not (self.letters and is_gossip(text))

    def has_event(self, run, index, delivered):
        """Whether an event is drawn, after these parcels were delivered."""
        word, args, outcome, _ = run.events[index]
        if not self.has_index(index):
            return False
        if isinstance(run, Trace) and word == "deliver" and not run.is_known(index):
            return self.node is None or any(self.concerns(parcel) for parcel in run.parcels if parcel[0] == index)
        if self.letters and word != "deliver" and outcome.split()[0] not in ("asked", "entered", "left", "cancelled"):
            return False
        if self.letters and word == "deliver" and (int(args[0]) in delivered or not run.is_original(int(args[0]))):
            return False
        is_own = self.concerns(run.parcels[int(args[0])]) if word == "deliver" else self.has_node(run.node_of(run.events[index]))
        return is_own or any(self.concerns(parcel) for parcel in run.parcels if parcel[0] == index)

    def text(self, names):
        """What the heading says of the part."""
        told = f", from event {self.first}" if self.first else ""
        told += "" if self.last is None else f", to event {self.last}"
        told += "" if self.node is None else f", node {names[self.node]}"
        return told + (", letters only" if self.letters else "")


def is_gossip(text):
    return text.split()[0] in GOSSIP


class Drawing:
    """What a picture of a part of a run has to show, as a list of things, with the side of its node where each text is
    best, and the nodes that act or receive."""

    def __init__(self, run, part):
        self.run, self.part = run, part
        self.things, self.story, self.row, self.entered = [], [], 0, 0
        self.shown, self.delivered, self.since, self.best, self.used = {}, set(), {}, {}, set()
        named, skipped = 0, False
        for index in range(len(run.events)):
            self.lose(index)
            if not part.has_event(run, index, self.delivered):
                skipped |= not (part.letters and part.has_index(index))
                self.leave_out(index)
                continue
            if skipped:
                self.add("index", self.row, "..")
                self.row += 1
                skipped = False
            if self.row - named >= NAMED_ROWS:
                inside = [at for at, (_, what, _) in self.since.items() if what.startswith("inside")]
                self.things += [("named", at, self.row, name) for at, name in enumerate(run.names) if at not in inside]
                named, self.row = self.row, self.row + 1
            self.draw(index)
            self.row += 1
        self.lose(len(run.events))
        if skipped:
            self.add("index", self.row, "..")
            self.row += 1
        for node in list(self.since):
            self.end(node)

    def add(self, *thing):
        self.things.append(thing)

    def end(self, node, is_cut=False):
        """The phase of a node ends; it is cut where the event at an end is not drawn."""
        begun, what, was_cut = self.since.pop(node, (self.row, "nothing", False))
        if begun != self.row:
            self.add(what, node, (begun, was_cut), (self.row, is_cut))

    def change(self, node, outcome, is_cut=False):
        """The phase of a node after an outcome."""
        if outcome.startswith("asked"):
            self.since[node] = self.row, "waits", is_cut
        elif outcome.startswith("entered"):
            self.end(node, is_cut)
            self.entered += 1
            self.since[node] = self.row, "inside " + outcome.split()[1], is_cut
        elif outcome.startswith("left") or outcome == "cancelled":
            self.end(node, is_cut)

    def leave_out(self, index):
        """What an event does that is not drawn."""
        word, args, outcome, _ = self.run.events[index]
        if word == "deliver":
            number = int(args[0])
            if number in self.shown and number not in self.delivered:
                self.add("start", self.look(number), *self.start_of(number))
                self.add("title", self.title(number))
            self.delivered.add(number)
        elif self.part.last is None or index <= self.part.last:
            self.change(self.run.node_of(self.run.events[index]), outcome, is_cut=True)

    def look(self, number):
        again = " again" if number in self.delivered else ""
        return INKS.get(self.run.parcels[number][3].split()[0], "other") + again

    def title(self, number):
        _, start, to, text = self.run.parcels[number]
        return f"#{number} {text} from {self.run.names[start]} to {self.run.names[to]}"

    def draw(self, index):
        """What is drawn of an event."""
        event = self.run.events[index]
        word, _, outcome, told = event
        node, row = self.run.node_of(event), self.row
        self.add("index", row, str(index))
        if index % 10 == 0:
            self.add("guide", row)
        if word == "deliver":
            told = self.deliver(int(event[1][0]))
        else:
            goes_right = {to > start for by, start, to, _ in self.run.parcels if by == index}
            self.best[node, row] = "left" if goes_right == {True} else "right"
        self.used.add(node)
        self.add("text", node, row, told)
        if not outcome.startswith("entered"):
            self.add("hollow dot" if outcome.startswith("refused") else "dot", node, row, told)
        if outcome.startswith(("entered", "left")):
            self.story.append(f" {index} {told}.")
        self.change(node, outcome)
        self.mark(index, node)
        sent = [number for number, parcel in enumerate(self.run.parcels) if parcel[0] == index and self.part.concerns(parcel)]
        self.shown |= dict.fromkeys(sent, row)
        gone = self.run.arriving | {number for _, number in self.run.losses}
        if undelivered := [number for number in sent if number not in gone]:
            self.keep(undelivered, row)

    def mark(self, index, node):
        """A run has no event that breaks a rule."""

    def deliver(self, number):
        """What is drawn of a delivery in the present row; returns its text."""
        _, start, node, text = self.run.parcels[number]
        is_cut = number not in self.shown
        if is_cut:
            self.add("tip", self.look(number), node, "left" if node < start else "right", self.row)
        else:
            self.add("arrow", self.look(number), start, self.shown[number], node, self.row)
        self.add("title", self.title(number))
        self.delivered.add(number)
        self.best[node, self.row] = "right" if start <= node else "left"
        is_far = is_cut or abs(start - node) >= LONG_NODES or self.row - self.shown[number] >= LONG_ROWS
        return f"#{number} {text}" + (f" from {self.run.names[start]}" if is_far else "")

    def start_of(self, number):
        """Where an arrow starts: the sender, the side of the addressee, and the row."""
        _, start, to, _ = self.run.parcels[number]
        return start, "left" if to < start else "right", self.shown[number]

    def lose(self, place):
        """The parcels that are lost after so many events, if their sendings are drawn, in a row of their own. After the
        drawn part, the arrow of such a parcel only starts, as that of one that is delivered there."""
        numbers = [number for at, number in self.run.losses if at == place and number in self.shown]
        if not numbers:
            return
        if not self.part.has_loss(place):
            for number in numbers:
                if number not in self.run.arriving:
                    self.add("start", self.look(number), *self.start_of(number))
                    self.add("title", self.title(number))
            return
        arrows = [(self.start_of(number), f"{self.title(number)}, lost") for number in numbers]
        for (start, side, above), same in itertools.groupby(arrows, key=lambda arrow: arrow[0]):
            self.add("lost", start, side, above, self.row)
            self.add("title", "\n".join(title for _, title in same))
        _, start, to, text = self.run.parcels[numbers[0]]
        more = f", and {len(numbers) - 1} more" if len(numbers) > 1 else ""
        self.best[start, self.row] = "right" if start <= to else "left"
        self.add("air", start, self.row, f"#{numbers[0]} {text} to {self.run.names[to]} lost{more}")
        self.row += 1

    def keep(self, numbers, sent_in):
        """The parcels of an event that are never delivered, in a row of their own."""
        self.row += 1
        marks = {}
        for number in numbers:
            _, start, to, _ = self.run.parcels[number]
            kind = "overtaken" if self.run.is_overtaken(number) else "pending"
            marks.setdefault((kind, start, sent_in, "right" if start <= to else "left"), []).append(self.title(number))
        for mark, titles in marks.items():
            self.add(*mark)
            self.add("title", "\n".join(titles))
        _, start, to, text = self.run.parcels[numbers[0]]
        more = f", and {len(numbers) - 1} more" if len(numbers) > 1 else ""
        self.best[start, self.row] = "right" if start <= to else "left"
        self.add("air", start, self.row, f"#{numbers[0]} {text} to {self.run.names[to]}{more}")

    def is_empty(self):
        return all(text == ".." for kind, _, text in (thing for thing in self.things if thing[0] == "index"))

    def nodes(self):
        """The nodes that have a line."""
        everyone = range(len(self.run.names))
        return [node for node in everyone if self.part.is_whole() or not self.used or node in self.used]

    def everything(self):
        """The things of the picture, as a count."""
        nodes = self.nodes()
        things = [thing for thing in self.things if thing[0] != "named" or thing[1] in nodes]
        things = [thing for thing in things if not thing[0].startswith(("waits", "inside")) or thing[1] in nodes]
        for node in nodes:
            name = self.run.names[node]
            things += [("name", node, name), ("name", node, name), ("line", node, self.row)]
        things.append(("story", "Sections:" + ("".join(self.story) or " none.")))
        return Counter(things)

    def places(self):
        """The positions of the lines: as far apart as the texts want that are between two of them."""
        right, left = Counter(), Counter()
        for thing in self.things:
            if thing[0] in NEAR:
                _, node, row, text = thing
                wants = right if self.best[node, row] == "right" else left
                wants[node] = max(wants[node], NEAR[thing[0]] + room_of(text))
        nodes, half = self.nodes(), {node: room_of(name) // 2 for node, name in enumerate(self.run.names)}
        wanted = [GAP + max(right[one], left[two], half[one] + half[two]) for one, two in zip(nodes, nodes[1:])]
        columns = [max(min(width, COLUMNS[1]), COLUMNS[0]) for width in wanted]
        if sum(columns) > SPAN:
            columns = [max(min(width, SPAN // len(columns)), COLUMNS[0]) for width in wanted]
        return {node: sum(columns[:at]) for at, node in enumerate(nodes)}


class TraceDrawing(Drawing):
    """The same of a trace: a delivery of no known message is left of all lines, and the event that breaks a rule marked."""

    def leave_out(self, index):
        if self.run.events[index][0] != "deliver" or self.run.is_known(index):
            super().leave_out(index)

    def draw(self, index):
        event, row = self.run.events[index], self.row
        if event[0] != "deliver" or self.run.is_known(index):
            super().draw(index)
            return
        self.add("index", row, str(index))
        if index % 10 == 0:
            self.add("guide", row)
        self.add("aside", row, event[3])
        assert all(by != index for by, *_ in self.run.parcels)

    def mark(self, index, node):
        """The mark of the event in the present row, and why it is marked, in the next one."""
        if index != self.run.broken:
            return
        self.add("broken", node, self.row)
        self.add("title", self.run.why)
        self.row += 1
        self.best[node, self.row] = "right"
        self.add("reason", node, self.row, self.run.why)

    def everything(self):
        """An event of no node is left of the first line."""
        first = self.nodes()[0]
        asides = [thing for thing in self.things if thing[0] == "aside"]
        self.things = [thing for thing in self.things if thing[0] != "aside"]
        for _, row, told in asides:
            self.add("air", first, row, told)
            self.best[first, row] = "left"
        return super().everything()


def width_of(text):
    """The width of a text in Helvetica, 12 pixels high, by its widths for a thousand."""
    narrow, middle = dict.fromkeys(" .:,ftI", 278), dict.fromkeys("ckJsvxyz", 500)
    wide = dict.fromkeys("ABEKPSVXY&", 667) | dict.fromkeys("CDHNRUw", 722) | dict.fromkeys("GOQ", 778)
    others = {"-": 333, "r": 333, "i": 222, "j": 222, "l": 222, "F": 611, "T": 611, "Z": 611, "<": 584, ">": 584}
    widths = narrow | middle | wide | others | {"m": 833, "M": 833, "W": 944}
    return 12 * sum(widths.get(letter, 556) for letter in text) / 1000


def room_of(text):
    """The room that is kept for a text, of which none needs more, in whole points."""
    narrow, middle = dict.fromkeys(" .:,ftI", 278), dict.fromkeys("ckJsvxyz", 500)
    wide = dict.fromkeys("ABCDEFHKNPRSTUVXYZw", 722) | dict.fromkeys("GOQ", 778) | dict.fromkeys("mMW", 944)
    widths = narrow | middle | wide | {"-": 333, "r": 333, "i": 222, "j": 222, "l": 222}
    return 12 * sum(widths.get(letter, 556) for letter in text) // 1000 + 1


def is_crossed(arrow, places, node, row, side, reach):
    """Whether an arrow, or that of a lost parcel, runs through a text at this side of a node, which is from one to
    another point away from it."""
    if arrow[0] == "lost":
        _, start, toward, above, below = arrow
        x = places[start]
        to = x + (ASIDE if toward == "right" else -ASIDE)
    else:
        _, _, start, above, end, below = arrow
        x, to = places[start], places[end]
        if start == end:
            x, to = x - 20, to - 20
    top, bottom = above * ROW, below * ROW
    high, low = max(top, row * ROW - 5), min(bottom, row * ROW + 5)
    if low < high:
        return False
    ways = [x + (to - x) * (y - top) / (bottom - top) for y in (high, low)]
    aside = 1 if side == "right" else -1
    near, far = (places[node] + away * aside for away in reach)
    return min(ways) <= max(near, far) and max(ways) >= min(near, far)


def ends_of(arrow):
    """The nodes between which an arrow runs; that of a lost parcel stays with its sender."""
    return arrow[1:2] if arrow[0] == "lost" else (arrow[2], arrow[4])


def badly_placed(things, places, sides, best):
    """The texts at a side where arrows run through them that are worse than those at the other side, and those at the
    other in vain. An arrow between other nodes is worse than one from or to the node of the text."""
    arrows = [thing for thing in things if thing[0] in ("arrow", "lost")]
    for kind, node, row, text in (thing for thing in things if thing[0] in NEAR):
        own, other = best[node, row], "left" if best[node, row] == "right" else "right"

        def worst(side, reach):
            across = [arrow for arrow in arrows if is_crossed(arrow, places, node, row, side, reach)]
            return max((1 if node in ends_of(arrow) else 2 for arrow in across), default=0)

        # the program counts in whole points
        near = NEAR[kind]
        surely, maybe = (near + 1, near - 1 + width_of(text)), (near - 1, near + 1 + room_of(text))
        if sides[node, row] == own:
            is_well = worst(own, surely) <= worst(other, maybe)
        else:
            is_well = worst(own, maybe) > worst(other, surely)
        if not is_well:
            yield node, row, sides[node, row], text


def row_of(y):
    """The row of a height."""
    assert int(y) % ROW == 0, f"{y} is no multiple of {ROW}"
    return int(y) // ROW


def top_of(y):
    """The row in which a bar begins, and whether it is cut there."""
    return (row_of(y), False) if y % ROW == 0 else (row_of(y - CUT), True)


def foot_of(y):
    """The row in which a bar ends, and whether it is cut there."""
    return (row_of(y), False) if y % ROW == 0 else (row_of(y + CUT), True)


def path_of(look, d, node_at):
    """The thing that a path draws."""

    def node(x):
        return node_at[int(x)]

    if box := re.fullmatch(r"M(\d+) (\d+)m-12-6h24v(\d+)h-24z", d):
        x, y, high = map(int, box.groups())
        return "inside", node(x), top_of(y), foot_of(y + high - 12)
    if bar := re.fullmatch(r"M(\d+) (\d+)v(\d+)", d):
        x, y, down = map(int, bar.groups())
        return "waits", node(x), top_of(y), foot_of(y + down)
    if line := re.fullmatch(r"M(\d+)-12V(\d+)", d):
        return "line", node(line[1]), row_of(line[2])
    if broken := re.fullmatch(r"M(\d+) (\d+)m-15 0l-13-7v14z", d):
        assert look == "broken"
        return look, node(broken[1]), row_of(broken[2])
    if mark := re.fullmatch(r"M(\d+) (\d+)l(-?)26 13(m-3-3l6 6m0-6l-6 6|m-3 0a3 3 0 1 0 6 0a3 3 0 1 0-6 0)", d):
        x, y, side, end = mark.groups()
        assert look == ("overtaken" if end.startswith("m-3-3") else "pending")
        return look, node(x), row_of(y), "left" if side else "right"
    if tip := re.fullmatch(r"M(\d+) (\d+)m(-?)26-13l(-?)26 13", d):
        x, y, back, aside = tip.groups()
        assert back != aside
        return "tip", look, node(x), "left" if aside else "right", row_of(y)
    if arrow := re.fullmatch(r"M(\d+) (\d+)l(-?\d+) (\d+)", d):
        x, y, aside, down = map(int, arrow.groups())
        if abs(aside) == ASIDE:
            assert down == ROW
            return "start", look, node(x), "left" if aside < 0 else "right", row_of(y)
        return "arrow", look, node(x), row_of(y), node(x + aside), row_of(y + down)
    bow = re.fullmatch(r"M(\d+) (\d+)q-40 (\d+) 0 (\d+)", d)
    x, y, half, down = map(int, bow.groups())
    assert half == down // 2
    return "arrow", look, node(x), row_of(y), node(x), row_of(y + down)


def lost_of(group, node_at):
    """The thing that the arrow of a lost parcel draws: a line that starts at the sender, with a cross at its end."""
    line, cross, title = group
    assert (line.tag, cross.tag, title.tag) == (SVG + "path", SVG + "path", SVG + "title") and cross.get("class") == "cross"
    x, y, side, down = re.fullmatch(r"M(\d+) (\d+)l(-?)26 (\d+)", line.get("d")).groups()
    assert cross.get("d") == f"M{x} {y}m{side}26 {down}m-3-3l6 6m0-6l-6 6" and int(down) >= ROW
    return "lost", node_at[int(x)], "left" if side else "right", row_of(y), row_of(int(y) + int(down))


def places_in(root, names):
    """The positions of the lines, by the names above them."""
    above = [part for part in root if part.get("class") == "name" and part.get("y") == "-18"]
    return {names.index(part.text): int(part.get("x")) for part in above}


def read_back(picture, names):
    """What a picture shows, as a count of things, at which side of its node each text is, and where the lines are."""
    root = xml.parse(picture).getroot()
    assert all(part.tag.removeprefix(SVG) in PARTS and set(part.keys()) <= set(TRAITS) for part in root.iter())
    left, top, width, height = map(int, root.get("viewBox").split())
    assert (root.get("width"), root.get("height")) == (str(width), str(height))
    things, sections, boxes, box_titles, sides = [], {}, [], [], {}
    assert [part.tag for part in root[:2]] == [SVG + "title", SVG + "desc"] and root.get("role") == "img"
    things.append(("title", root[0].text))
    things.append(("story", root[1].text.removeprefix("Time runs downward; the text of each event is beside its node. ")))
    groups = root.findall(SVG + "g")
    assert groups[1][0].text == "event"
    places = places_in(root, names)
    node_at = {x: node for node, x in places.items()}
    for text in groups[1][1:]:
        things.append(("index", row_of(text.get("y")), text.text))
    for part in root:
        look = part.get("class", "")
        if part.tag == SVG + "circle":
            dot = "hollow dot" if look == "refused" else "dot"
            things.append((dot, node_at[int(part.get("cx"))], row_of(part.get("cy")), part[0].text))
        elif part.tag == SVG + "use":
            assert (part.get("href"), int(part.get("x"))) == ("#" + groups[1].get("id"), width - EDGE)
        elif look == "guide":
            across = f"M-{-left} (\\d+)h{width}"
            assert re.fullmatch(f"({across})*", part.get("d"))
            things += [("guide", row_of(y)) for y in re.findall(across, part.get("d"))]
        elif look == "lost":
            things += [lost_of(part, node_at), ("title", part[2].text)]
        elif part.tag == SVG + "path":
            thing = path_of(look, part.get("d"), node_at)
            (boxes if thing[0] == "inside" else things).append(thing)
            if thing[0] in ("arrow", "tip", "start", "overtaken", "pending", "broken"):
                things.append(("title", part[0].text))
            if thing[0] == "inside":
                box_titles.append(part[0].text)
            marker = part.get("marker-end")
            assert (marker == f"url(#{look.split()[0]})") if thing[0] in ("arrow", "tip") else marker is None
        elif part.tag == SVG + "text":
            x, y = int(part.get("x")), int(part.get("y"))
            wide = width_of(part.text)
            if look == "heading":
                assert (x, y) == (left + 16, top + 20) and x + 14 / 12 * wide <= left + width, f"too wide: {part.text}"
                things.append(("heading", part.text))
                continue
            node = node_at[x]
            if look == "name":
                assert left <= x - wide / 2 and x + wide / 2 <= left + width, f"too wide: {part.text}"
                again = part.get("dy") == "4"
                things.append(("named", node, row_of(y), part.text) if again else ("name", node, part.text))
                continue
            if look == "section":
                sections[node, top_of(y)] = part.text
                continue
            side = "left" if "left" in look else "right"
            kind = next((word for word in ("air", "reason") if word in look), "text")
            assert part.get("dx") == ("-" if side == "left" else "") + str(NEAR[kind])
            things.append((kind, node, row_of(y), part.text))
            sides[node, row_of(y)] = side
            reach = x - 33 - wide if side == "left" else x + 33 + wide
            assert left + EDGE <= reach <= left + width - EDGE, f"too wide: {part.text}"
            assert 0 <= y <= top + height
    for (_, node, begun, ended), titled in zip(boxes, box_titles):
        section = sections.pop((node, begun))
        assert titled == f"section {section}"
        things.append(("inside " + section, node, begun, ended))
    assert not sections
    return Counter(things), sides, places


def arguments():
    parser = argparse.ArgumentParser()
    for word in ("plan", "printed", "picture"):
        parser.add_argument(word)
    parser.add_argument("--from", type=int, default=0, dest="first")
    parser.add_argument("--to", type=int, dest="last")
    parser.add_argument("--node")
    parser.add_argument("--letters", action="store_true")
    parser.add_argument("--trace")
    return parser.parse_args()


def drawing_of(plan, words):
    """What the picture has to show, and the start of its title and of its heading."""
    names = plan["nodes"]
    part = Part(words.first, words.last, names.index(words.node) if words.node else None, words.letters)
    with open(words.printed, encoding="utf-8") as file:
        printed = file.read()
    if words.trace is None:
        run = Run(names, printed.splitlines())
        what = f"{ALGORITHMS[plan['algorithm']]} algorithm"
        drawing, told = Drawing(run, part), ""
        title = f"{what}, nodes: {' '.join(names)}, events: {len(run.events)}"
    else:
        with open(words.trace, encoding="utf-8") as file:
            run = Trace(names, printed, file.read())
        what = "Trace"
        drawing, told = TraceDrawing(run, part), f", {run.verdict}"
        title = f"{what}, nodes: {' '.join(names)}\n{run.judged}"
    heading = f"{what}, nodes: {len(names)}, sections entered: {drawing.entered}{told}"
    return drawing, title, heading + part.text(names) + (", no events" if drawing.is_empty() else "")


def main():
    words = arguments()
    with open(words.plan, encoding="utf-8") as file:
        plan = json.load(file)
    drawing, title, heading = drawing_of(plan, words)
    wanted = drawing.everything() + Counter([("title", title), ("heading", heading)])
    there, sides, places = read_back(words.picture, plan["nodes"])
    for thing in (wanted - there).elements():
        print("lacks", *thing)
    for thing in (there - wanted).elements():
        print("has", *thing)
    if places != drawing.places():
        print("lines at", places, "in place of", drawing.places())
    misplaced = list(badly_placed(there, places, sides, drawing.best)) if wanted == there else []
    for text in misplaced:
        print("badly placed", *text)
    sys.exit(wanted != there or places != drawing.places() or misplaced != [])


if __name__ == "__main__":
    main()
