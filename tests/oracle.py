"""A second implementation of `mx replay` and `mx explore`, written from the step tables alone, to compare
printouts with.

Usage: tests/oracle.py PLAN EVENTS, or tests/oracle.py state PLAN EVENTS for `replay --state`, for a plan and events that
are well-formed, or
tests/oracle.py explore PLAN SEED STEPS, or
tests/oracle.py walk PLAN SEED STEPS [LOSS REPEAT [in-order]], which is `mx explore .. --walk`.

From the bottom up: letters, which nodes send to each other; cores, one class for each algorithm, which
take the letters and say when their node may enter the section; members, which are a core with the journal
of the sections that were left and a draft of the present one; the replay of events, which prints; and the
schedules that are drawn from a seed.

Nodes are their places in the plan, counted from 0. A stamp is a request's number and node, and stamps are
in the order of their numbers, then of their nodes.
"""
import json
import sys
from collections import namedtuple

GREATEST = (1 << 64) - 1  # what a counter can't pass

IDLE = "idle"
WAITING = "waiting"
INSIDE = "inside"

MAX_READS = 8  # in one section
MAX_WRITES = 8
MAX_RANGES = 8  # in one want
MAX_RECORDS = 4  # in one answer to a want

PLANES = {7: (0, 1, 3), 13: (0, 1, 3, 9), 21: (0, 1, 4, 14, 16)}


# Letters. Of the numbers in them, top and last are the greatest section number that the sender knows.

Stamp = namedtuple("Stamp", "number node")  # tells requests apart, and puts them in order

Request = namedtuple("Request", "stamp")  # asks for the section (Ricart and Agrawala, Maekawa)
Reply = namedtuple("Reply", "stamp top")  # permits a request (Ricart and Agrawala)

Locked = namedtuple("Locked", "stamp grant last")  # gives an arbiter's lock to a request (Maekawa)
Failed = namedtuple("Failed", "stamp")  # another request comes before this one at the arbiter
Inquire = namedtuple("Inquire", "stamp grant")  # asks whether a granted lock can be given back
Relinquish = namedtuple("Relinquish", "stamp grant")  # gives a lock back, and its request still waits
Release = namedtuple("Release", "stamp top")  # gives a lock back for good

TreeRequest = namedtuple("TreeRequest", "number")  # asks for the privilege; counted by node (Raymond)
Privilege = namedtuple("Privilege", "hop last")  # hands the privilege to a neighbour
Got = namedtuple("Got", "hop")  # acknowledges a privilege

Want = namedtuple("Want", "ranges")  # asks for records; a range is its first and last section number
Records = namedtuple("Records", "records")  # brings them, as pairs of a section number and its writes
Base = namedtuple("Base", "upto values")  # brings what the sections up to this one left in the registers

TEXTS = {
    Request: "request {stamp}",
    Reply: "reply {stamp} top {top}",
    Locked: "locked {stamp} grant {grant} last {last}",
    Failed: "failed {stamp}",
    Inquire: "inquire {stamp} grant {grant}",
    Relinquish: "relinquish {stamp} grant {grant}",
    Release: "release {stamp} top {top}",
    TreeRequest: "request {number}",
    Privilege: "privilege {hop} last {last}",
    Got: "got {hop}",
    Base: "base {upto}",
}


def text(letter, names):
    """A letter as it is printed, given the names of the nodes."""
    if isinstance(letter, Want):
        return "want" + "".join(f" {first}..{last}" for first, last in letter.ranges)
    if isinstance(letter, Records):
        return "records" + "".join(f" {number}" for number, _ in letter.records)
    fields = letter._asdict()
    if "stamp" in fields:
        fields["stamp"] = f"{letter.stamp.number}.{names[letter.stamp.node]}"
    return TEXTS[type(letter)].format(**fields)


# Cores.


def stamp_text(stamp, names):
    return f"{stamp.number}.{names[stamp.node]}"


def fact(name, values):
    """A fact that has values, in a list; an empty list without any."""
    return [" ".join([name, *values])] if values else []


def numbered(numbers, names):
    """Nodes with a number each, in the order of the nodes."""
    return [f"{names[node]}/{numbers[node]}" for node in sorted(numbers)]


class Core:
    """What the algorithms have in common: a node's phase, its numbers, and the letters it puts out.

    An algorithm adds permitted, request (what a node does that begins to wait), leave, tick, deliver,
    awaited (the nodes that a node waits for, while it waits) and knows (the facts that are shown of a node).
    """

    def __init__(self, me, plan, highest):
        self.me = me
        self.limit = plan["sections"]
        self.phase = IDLE
        self.highest = highest  # the greatest number of a request that this node made or heard of
        self.top = 0  # the greatest section number that this node knows
        self.mine = 0  # the number of the latest section that this node entered
        self.out = []  # pairs of an addressee and a letter; whoever posts them puts an empty list here

    def send(self, addressee, letter):
        self.out.append((addressee, letter))

    def ask(self):
        """Asks for the section."""
        if self.phase != IDLE:
            return "refused not idle"
        if self.highest == GREATEST:
            return "refused stamps spent"
        self.highest += 1
        self.phase = WAITING
        self.request()
        return f"asked {self.highest}"

    def enter(self):
        """Enters the section under the number after the greatest known, where that is permitted."""
        if self.phase != WAITING:
            return "refused not waiting"
        if not self.permitted():
            return "refused not granted"
        if self.top >= self.limit:
            return "refused numbers spent"
        self.top += 1
        self.mine = self.top
        self.phase = INSIDE
        self.entered()
        return f"entered {self.mine}"

    def current(self, names):
        """The stamp of the present request, where there is one."""
        return [] if self.phase == IDLE else fact("request", [stamp_text(self.ours, names)])

    def wanted(self, names):
        """What a node that waits needs yet."""
        if self.phase != WAITING:
            return []
        return ["may enter"] if self.permitted() else fact("missing", [names[node] for node in self.awaited()])

    def is_ready(self):
        """Whether the node is inside, or waits and may enter."""
        return self.phase == INSIDE or self.phase == WAITING and self.permitted()

    def entered(self):
        """What an algorithm does on entering; nothing, unless it says so."""

    def cancel(self):
        """Gives the request up that this node waits with."""
        if self.phase != WAITING:
            return "refused not waiting"
        self.withdraw()
        return "cancelled"

    def withdraw(self):
        """What an algorithm does on giving a request up: what it does on leaving, unless it says so."""
        self.leave()


class Ricart(Core):
    """Ricart and Agrawala (1981): who asks needs a reply from every other node."""

    def __init__(self, me, plan):
        origin = plan.get("origin", 0)
        super().__init__(me, plan, origin)
        self.others = [node for node in range(len(plan["nodes"])) if node != me]
        self.ours = Stamp(origin, me)  # the latest request; before the first, a stamp that none has
        self.replied = set()
        self.deferred = {}  # by node, the stamp to reply to on leaving

    def permitted(self):
        return self.replied.issuperset(self.others)

    def awaited(self):
        return [node for node in self.others if node not in self.replied]

    def knows(self, names):
        held_back = [stamp_text(self.deferred[node], names) for node in sorted(self.deferred)]
        known = fact("clock", [str(self.highest)]) + self.current(names) + self.wanted(names)
        return known + fact("holds back", held_back)

    def request(self):
        self.ours = Stamp(self.highest, self.me)
        self.replied = set()
        self.send_request(self.others)

    def send_request(self, nodes):
        request = Request(self.ours)
        for node in nodes:
            self.send(node, request)

    def leave(self):
        self.phase = IDLE
        for node in sorted(self.deferred):
            self.send(node, Reply(self.deferred[node], self.top))
        self.deferred = {}

    def tick(self):
        """Asks once more those that have not replied."""
        if self.phase == WAITING:
            self.send_request([node for node in self.others if node not in self.replied])

    def deliver(self, sender, letter):
        if sender == self.me:
            return
        if isinstance(letter, Request):
            self.take_request(sender, letter.stamp)
        else:
            self.take_reply(sender, letter)

    def take_request(self, sender, stamp):
        """Replies to a request, or defers the reply where our own request comes before it."""
        if stamp.node != sender:
            return
        self.highest = max(self.highest, stamp.number)
        if self.phase != IDLE and self.ours < stamp:
            self.deferred[sender] = max(stamp, self.deferred.get(sender, stamp))
        else:
            self.send(sender, Reply(stamp, self.top))

    def take_reply(self, sender, reply):
        """Counts a node's first reply to our present request."""
        if self.phase == WAITING and reply.stamp == self.ours and sender not in self.replied:
            self.replied.add(sender)
            self.top = max(self.top, reply.top)


class Arbiter:
    """The half of Maekawa's algorithm that locks this node for one request at a time."""

    def __init__(self, plan, send):
        origin = plan.get("origin", 0)
        self.send = send
        self.lock = None  # the letter Locked that holds the lock
        self.granted = origin  # the number of the latest grant
        self.waiting = {}  # by node, the request that waits for the lock
        self.ended = [origin] * len(plan["nodes"])  # by node, the greatest number it released
        self.last = 0  # the greatest section number that this arbiter was told
        self.handlers = {
            Request: self.take_request,
            Relinquish: self.take_relinquish,
            Release: self.take_release,
        }

    def deliver(self, sender, letter):
        self.handlers[type(letter)](sender, letter)

    def tick(self):
        """Sends the lock once more to the node that has it."""
        if self.lock is not None:
            self.send(self.lock.stamp.node, self.lock)

    def knows(self, names):
        lock = ["arbiter free"]
        if self.lock is not None:
            lock = [f"arbiter for {stamp_text(self.lock.stamp, names)}", f"arbiter grant {self.lock.grant}"]
        queue = [stamp_text(self.waiting[node], names) for node in sorted(self.waiting)]
        return lock + fact("arbiter queue", queue) + [f"arbiter last {self.last}"]

    def has_locked(self, node):
        return self.lock is not None and self.lock.stamp.node == node

    def grant(self):
        """Gives the lock, which is free, to the first request that waits."""
        if self.waiting and self.granted < GREATEST:
            first = min(self.waiting.values())
            del self.waiting[first.node]
            self.granted += 1
            self.lock = Locked(first, self.granted, self.last)
            self.send(first.node, self.lock)

    def take_request(self, sender, request):
        """Lets a request wait, unless it is over, has the lock or is older than another of its node."""
        stamp = request.stamp
        if stamp.number <= self.ended[sender]:
            return
        if self.has_locked(sender) and stamp <= self.lock.stamp:
            if stamp == self.lock.stamp:
                self.send(sender, self.lock)
            return
        if stamp < self.waiting.get(sender, stamp):
            return
        self.waiting[sender] = stamp
        if self.lock is None:
            self.grant()
        else:
            self.rank(stamp)

    def rank(self, stamp):
        """Fails a request that came while the lock is held, or inquires for the lock on its behalf."""
        holder = self.lock.stamp
        others = [other for node, other in self.waiting.items() if node != stamp.node]
        first = min(others, default=None)
        inquiry = Inquire(holder, self.lock.grant)
        if holder.node == stamp.node:
            self.send(holder.node, inquiry)
        elif holder < stamp or (first is not None and first < stamp):
            self.send(stamp.node, Failed(stamp))
        else:
            self.send(holder.node, inquiry)
            if first is not None:
                self.send(first.node, Failed(first))

    def take_relinquish(self, sender, letter):
        """Takes the lock back; its request waits again, unless its node has made another since."""
        if self.lock is not None and (self.lock.stamp, self.lock.grant) == (letter.stamp, letter.grant):
            self.lock = None
            self.waiting.setdefault(sender, letter.stamp)
            self.grant()

    def take_release(self, sender, release):
        """Forgets the sender's requests up to the released one, and takes the lock back from them."""
        stamp = release.stamp
        self.last = max(self.last, release.top)
        self.ended[sender] = max(self.ended[sender], stamp.number)
        if sender in self.waiting and self.waiting[sender] <= stamp:
            del self.waiting[sender]
        if self.has_locked(sender) and self.lock.stamp <= stamp:
            self.lock = None
            self.grant()


class Maekawa(Core):
    """Maekawa (1985): who asks needs the locks of all arbiters in its set, and sets meet.

    Each node is an arbiter too.
    """

    def __init__(self, me, plan, sets):
        origin = plan.get("origin", 0)
        super().__init__(me, plan, origin)
        self.sets = sets
        self.arbiters = sorted(sets[me])
        self.arbiter = Arbiter(plan, self.send)
        self.ours = Stamp(origin, me)  # the latest request; before the first, a stamp that none has
        self.held = {}  # by arbiter, the grant under which we have its lock
        self.given_back = [origin] * len(plan["nodes"])  # by arbiter, the greatest grant given back
        self.failed = set()  # arbiters at which another request comes before ours
        self.inquired = {}  # by arbiter, a grant that it inquired for, to give back should we fail
        self.handlers = {
            Locked: self.take_locked,
            Failed: self.take_failed,
            Inquire: self.take_inquire,
        }

    def permitted(self):
        return all(arbiter in self.held for arbiter in self.arbiters)

    def awaited(self):
        return [arbiter for arbiter in self.arbiters if arbiter not in self.held]

    def knows(self, names):
        known = fact("clock", [str(self.highest)]) + self.current(names)
        known += fact("grants", numbered(self.held, names)) + self.wanted(names)
        known += fact("failed", [names[arbiter] for arbiter in sorted(self.failed)])
        return known + fact("inquired", numbered(self.inquired, names)) + self.arbiter.knows(names)

    def request(self):
        self.ours = Stamp(self.highest, self.me)
        self.forget_answers()
        self.send_all(self.arbiters, Request(self.ours))

    def forget_answers(self):
        self.held = {}
        self.failed = set()
        self.inquired = {}

    def send_all(self, arbiters, letter):
        for arbiter in arbiters:
            self.send(arbiter, letter)

    def entered(self):
        self.inquired = {}

    def leave(self):
        self.phase = IDLE
        self.send_all(self.arbiters, Release(self.ours, self.top))
        self.forget_answers()

    def tick(self):
        """Asks once more for the locks that are missing; the own arbiter repeats the lock it gave."""
        if self.phase == WAITING:
            missing = [arbiter for arbiter in self.arbiters if arbiter not in self.held]
            self.send_all(missing, Request(self.ours))
        self.arbiter.tick()

    def deliver(self, sender, letter):
        """Takes an arbiter's answer to this node, or hands a letter to the own arbiter."""
        handler = self.handlers.get(type(letter))
        if handler is not None:
            if sender in self.sets[self.me] and letter.stamp.node == self.me:
                handler(sender, letter)
        elif self.me in self.sets[sender] and letter.stamp.node == sender:
            if isinstance(letter, Request):
                self.highest = max(self.highest, letter.stamp.number)
            self.arbiter.deliver(sender, letter)

    def waits_with(self, stamp):
        return self.phase == WAITING and stamp == self.ours

    def release_ended(self, arbiter, stamp):
        """Releases a lock once more that was given to a request of ours which is over."""
        is_present = self.phase != IDLE and stamp == self.ours
        if stamp.number <= self.ours.number and not is_present:
            self.send(arbiter, Release(stamp, self.top))

    def give_back(self, arbiter, grant):
        """Gives a grant back while we wait; this arbiter then has another request before ours."""
        self.send(arbiter, Relinquish(self.ours, grant))
        self.given_back[arbiter] = max(self.given_back[arbiter], grant)
        self.held.pop(arbiter, None)
        self.inquired.pop(arbiter, None)
        self.failed.add(arbiter)

    def fail(self, arbiter):
        """Notes that we failed at an arbiter, and gives back each lock that was inquired for."""
        self.failed.add(arbiter)
        for inquirer in sorted(self.inquired):
            self.give_back(inquirer, self.inquired[inquirer])

    def take_locked(self, arbiter, letter):
        """Takes a lock; a grant that was given back before it came is given back again."""
        if not self.waits_with(letter.stamp):
            self.release_ended(arbiter, letter.stamp)
            return
        if arbiter in self.held:
            return
        if letter.grant <= self.given_back[arbiter]:
            self.send(arbiter, Relinquish(letter.stamp, letter.grant))
            return
        self.held[arbiter] = letter.grant
        self.failed.discard(arbiter)
        self.top = max(self.top, letter.last)

    def take_failed(self, arbiter, letter):
        if self.waits_with(letter.stamp) and arbiter not in self.held:
            self.fail(arbiter)

    def take_inquire(self, arbiter, letter):
        """Gives a lock back where we have failed somewhere; else remembers the inquiry."""
        if not self.waits_with(letter.stamp):
            self.release_ended(arbiter, letter.stamp)
            return
        held = self.held.get(arbiter)
        if held is None:
            self.give_back(arbiter, letter.grant)
            self.fail(arbiter)
        elif held != letter.grant:
            self.send(arbiter, Relinquish(letter.stamp, letter.grant))
        elif self.failed:
            self.give_back(arbiter, letter.grant)
        else:
            self.inquired[arbiter] = letter.grant


class Raymond(Core):
    """Raymond (1989): one privilege goes along the edges of a tree; who asks needs it.

    Each node knows which neighbour lies on the way to the privilege, and queues who asked it.
    """

    def __init__(self, me, plan, neighbours, holder):
        super().__init__(me, plan, 0)
        self.neighbours = neighbours
        self.holder = holder  # the neighbour on the way to the privilege, or this node
        self.queue = []  # this node and neighbours, in the order in which they asked
        self.has_asked = False  # whether the holder has been asked
        self.requests = 0  # how many requests this node has sent to neighbours
        self.heard = dict.fromkeys(neighbours, 0)  # by neighbour, the greatest number of its requests
        self.hop = plan.get("origin", 0)  # the latest hop of the privilege that this node knows
        self.unacknowledged = None  # a neighbour and the privilege sent to it

    def permitted(self):
        return self.holder == self.me and self.queue[:1] == [self.me]

    def awaited(self):
        return [] if self.holder == self.me else [self.holder]

    def knows(self, names):
        has_it = self.holder == self.me
        known = ["has the privilege"] if has_it else [f"privilege towards {names[self.holder]}"]
        known += fact("queue", [names[node] for node in self.queue])
        known += ["has asked"] if self.has_asked else []
        known += [f"hop {self.hop}"]
        if self.unacknowledged is not None:
            neighbour, privilege = self.unacknowledged
            known += [f"unacknowledged {names[neighbour]}/{privilege.hop}"]
        return known + (["may enter"] if self.phase == WAITING and self.permitted() else [])

    def request(self):
        self.queue.append(self.me)
        self.go_on()

    def go_on(self):
        """Passes the privilege on or asks for it, as the queue demands."""
        self.pass_privilege()
        self.ask_holder()

    def pass_privilege(self):
        """Sends the privilege to the first in the queue, where this node has it and doesn't need it."""
        if self.holder != self.me or self.phase == INSIDE or self.hop == GREATEST:
            return
        if self.queue and self.queue[0] != self.me:
            self.holder = self.queue.pop(0)
            self.has_asked = False
            self.hop += 1
            self.unacknowledged = (self.holder, Privilege(self.hop, self.top))
            self.repeat_privilege()

    def ask_holder(self):
        """Asks for the privilege, where someone in the queue needs it and that has not been done."""
        if self.holder != self.me and self.queue and not self.has_asked and self.requests < GREATEST:
            self.requests += 1
            self.has_asked = True
            self.send(self.holder, TreeRequest(self.requests))

    def entered(self):
        self.queue.remove(self.me)

    def leave(self):
        self.phase = IDLE
        self.go_on()

    def withdraw(self):
        self.queue.remove(self.me)
        self.leave()

    def tick(self):
        """Sends once more what is unacknowledged or unanswered."""
        self.repeat_privilege()
        if self.has_asked and self.holder != self.me:
            self.send(self.holder, TreeRequest(self.requests))

    def repeat_privilege(self):
        if self.unacknowledged is not None:
            self.send(*self.unacknowledged)

    def deliver(self, sender, letter):
        if sender not in self.neighbours:
            return
        if isinstance(letter, TreeRequest):
            self.take_request(sender, letter.number)
        elif isinstance(letter, Privilege):
            self.take_privilege(sender, letter)
        else:
            self.take_got(sender, letter)

    def take_request(self, sender, number):
        """Queues a neighbour on a new request; one that was sent the privilege is sent it once more."""
        if sender == self.holder:
            self.repeat_privilege()
        elif number > self.heard[sender]:
            self.heard[sender] = number
            if sender not in self.queue:
                self.queue.append(sender)
            self.go_on()

    def take_privilege(self, sender, letter):
        """Acknowledges a privilege, and has it where its hop is a new one."""
        self.send(sender, Got(letter.hop))
        if letter.hop > self.hop:
            self.hop = letter.hop
            self.holder = self.me
            self.has_asked = False
            self.unacknowledged = None
            self.top = max(self.top, letter.last)
            self.go_on()

    def take_got(self, sender, letter):
        if self.unacknowledged is not None:
            addressee, privilege = self.unacknowledged
            if (addressee, privilege.hop) == (sender, letter.hop):
                self.unacknowledged = None


# Plans.


def cores(plan):
    """The cores of a plan's nodes, in their order."""
    nodes = range(len(plan["nodes"]))
    if plan["algorithm"] == "ricart":
        return [Ricart(node, plan) for node in nodes]
    if plan["algorithm"] == "maekawa":
        sets = arbiter_sets(plan)
        return [Maekawa(node, plan, sets) for node in nodes]
    neighbours = tree(plan)
    towards = ways(neighbours, plan["nodes"].index(plan["holder"]))
    return [Raymond(node, plan, neighbours[node], towards[node]) for node in nodes]


def arbiter_sets(plan):
    """For each node, the set of its arbiters."""
    names = plan["nodes"]
    count = len(names)
    quorums = plan["quorums"]
    if quorums["kind"] == "plane":
        return [{(node + offset) % count for offset in PLANES[count]} for node in range(count)]
    if quorums["kind"] == "grid":
        return [row_and_column(node, count, quorums["cols"]) for node in range(count)]
    return [{names.index(name) for name in listed} for listed in quorums["sets"]]


def row_and_column(node, count, columns):
    """The nodes of a grid that stand in the same row or the same column as this one."""
    row, column = divmod(node, columns)
    return {other for other in range(count) if other // columns == row or other % columns == column}


def tree(plan):
    """For each node, the set of its neighbours."""
    names = plan["nodes"]
    neighbours = [set() for _ in names]
    for one, other in plan["edges"]:
        neighbours[names.index(one)].add(names.index(other))
        neighbours[names.index(other)].add(names.index(one))
    return neighbours


def ways(neighbours, holder):
    """For each node, its neighbour on the way to the holder; for the holder itself, the holder."""
    towards = {holder: holder}
    reached = [holder]
    for node in reached:
        for neighbour in neighbours[node] - towards.keys():
            towards[neighbour] = node
            reached.append(neighbour)
    return towards


# Members.


class Journal:
    """The writes of the sections that were left, as far as a node knows them.

    The sections up to a number, its base, may be settled: what they left in the registers stands in place of
    their records, and all other records are of sections above.
    """

    def __init__(self):
        self.base = Base(0, {})  # by register, the value; a register that is not there has 0
        self.writes = {}  # by the section's number, pairs of a register and a value

    def __len__(self):
        return len(self.writes)

    def add(self, number, writes):
        """Adds a section's record, unless there is one, or the section is settled."""
        if number > self.base.upto:
            self.writes.setdefault(number, tuple(writes))

    def settle(self, number):
        """Lets what the sections up to this one left stand in place of their records."""
        if number < self.base.upto:
            return f"refused below {self.base.upto}"
        gap = self.gapless() + 1
        if gap <= number:
            return f"refused gap {gap}"
        values = dict(self.base.values)
        for settled in range(self.base.upto + 1, number + 1):
            values.update(self.writes[settled])
        self.take_base(Base(number, values))
        return "settled"

    def take_base(self, base):
        """Takes a base that reaches further than the own one, and drops the records up to it."""
        if base.upto > self.base.upto:
            self.base = base
            self.writes = {number: writes for number, writes in self.writes.items() if number > base.upto}

    def value(self, register, end):
        """What the sections below this end, which is above the base, left in a register; 0 where none wrote it."""
        value = self.base.values.get(register, 0)
        for number in sorted(self.writes):
            if number < end:
                value = last_written(self.writes[number], register, value)
        return value

    def gapless(self):
        """How many sections are settled or there from the first on without a gap."""
        number = self.base.upto
        while number + 1 in self.writes:
            number += 1
        return number

    def lacks_before(self, section):
        """Whether some section before this one is neither settled nor there."""
        return any(number not in self.writes for number in range(self.base.upto + 1, section))

    def gaps(self, limit):
        """The ranges of sections up to this limit that are neither settled nor there."""
        gaps = []
        first = self.base.upto + 1
        for number in sorted(self.writes) + [limit + 1]:
            last = min(number - 1, limit)
            if first <= last:
                gaps.append((first, last))
            first = number + 1
        return gaps

    def has_settled(self, ranges):
        """Whether some section in these ranges is settled."""
        return any(max(first, 1) <= min(last, self.base.upto) for first, last in ranges)

    def within(self, ranges):
        """The records in these ranges."""
        return [
            (number, self.writes[number])
            for number in sorted(self.writes)
            if any(first <= number <= last for first, last in ranges)
        ]


def last_written(writes, register, otherwise):
    """The value of the last of these writes to a register."""
    for written, value in reversed(writes):
        if written == register:
            return value
    return otherwise


class Member:
    """A node: its core, its journal, and a draft of the section it is inside, which is empty elsewhere.

    What happens to it gives the outcome to print, or None where that is the number of letters sent.
    """

    def __init__(self, core):
        self.core = core
        self.journal = Journal()
        self.empty_draft()

    def empty_draft(self):
        self.reads = 0
        self.writes = []

    def ask(self):
        return self.core.ask()

    def enter(self):
        return self.core.enter()

    def cancel(self):
        return self.core.cancel()

    def read(self, register):
        """Reads a register: the draft's write, else what all earlier sections left."""
        if self.core.phase != INSIDE:
            return "refused not inside"
        gap = self.journal.gapless() + 1
        if gap < self.core.mine:
            return f"refused gap {gap}"
        if self.reads == MAX_READS:
            return "refused full"
        self.reads += 1
        value = last_written(self.writes, register, None)
        if value is None:
            value = self.journal.value(register, self.core.mine)
        return f"value {value}"

    def write(self, register, value):
        if self.core.phase != INSIDE:
            return "refused not inside"
        if len(self.writes) == MAX_WRITES:
            return "refused full"
        self.writes.append((register, value))
        return "written"

    def leave(self):
        """Makes the draft a record, and leaves."""
        if self.core.phase != INSIDE:
            return "refused not inside"
        self.journal.add(self.core.mine, self.writes)
        outcome = f"left {self.core.mine} writes {len(self.writes)}"
        self.empty_draft()
        self.core.leave()
        return outcome

    def tick(self):
        self.core.tick()

    def want(self, node):
        """Asks a node for records that are missing here."""
        gaps = self.journal.gaps(self.core.limit)[:MAX_RANGES]
        if gaps:
            self.core.send(node, Want(tuple(gaps)))

    def settle(self, number):
        return self.journal.settle(number)

    def restart(self):
        self.empty_draft()
        return "woken"

    def deliver(self, sender, letter):
        """Takes a letter: one about records itself, else by its core."""
        if isinstance(letter, Want):
            self.answer(sender, letter.ranges)
        elif isinstance(letter, Base):
            self.journal.take_base(letter)
        elif isinstance(letter, Records):
            for number, writes in letter.records:
                self.journal.add(number, writes)
        else:
            self.core.deliver(sender, letter)
        return "delivered"

    def answer(self, node, ranges):
        """Sends the base where some of these sections are settled, and then the first records of them."""
        if self.journal.has_settled(ranges):
            self.core.send(node, self.journal.base)
        records = self.journal.within(ranges)[:MAX_RECORDS]
        if records:
            self.core.send(node, Records(tuple(records)))

    def closing(self, name, registers):
        """The line that says how this node stands at the end."""
        phase = self.core.phase
        if phase == INSIDE:
            phase = f"inside {self.core.mine}"
        end = self.core.limit + 1
        values = [f"{register}={self.journal.value(register, end)}" for register in registers]
        counts = f"mine {self.core.mine}, records {len(self.journal)}, gapless {self.journal.gapless()}"
        return f"{name}: " + ", ".join([phase, counts] + values)

    def knowledge(self, names):
        """The line of what the node knows by its algorithm."""
        return "  " + ", ".join(self.core.knows(names))


# Replays.


ACTS = {
    "ask": Member.ask,
    "enter": Member.enter,
    "cancel": Member.cancel,
    "read": Member.read,
    "write": Member.write,
    "leave": Member.leave,
    "tick": Member.tick,
    "want": Member.want,
    "settle": Member.settle,
    "restart": Member.restart,
}


class Replay:
    """A cluster to which events happen, and all parcels that it sent."""

    def __init__(self, plan, put):
        self.names = plan["nodes"]
        self.registers = plan["registers"]
        self.members = [Member(core) for core in cores(plan)]
        self.parcels = []  # of each, its sender, addressee and letter
        self.delivered = set()  # the numbers of those that were delivered
        self.put = put  # takes a line

    def deliver(self, number):
        """Brings a parcel to its addressee; gives that and the outcome."""
        sender, addressee, letter = self.parcels[number]
        self.delivered.add(number)
        member = self.members[addressee]
        return member, member.deliver(sender, letter)

    def act(self, kind, name, *words):
        """Lets a node do something by itself; gives it and the outcome."""
        if kind == "want":
            words = [self.names.index(word) for word in words]
        member = self.members[self.names.index(name)]
        return member, ACTS[kind](member, *words)

    def happen(self, index, event):
        """Lets an event happen, prints it and posts the letters that it put out; gives the node that acted."""
        if event[0] == "deliver":
            member, outcome = self.deliver(event[1])
        else:
            member, outcome = self.act(*event)
        letters = member.core.out
        member.core.out = []
        if outcome is None:
            outcome = f"sent {len(letters)}"
        self.put(f"{index} {' '.join(map(str, event))}: {outcome}")
        for addressee, letter in letters:
            self.post(member.core.me, addressee, letter)
        return member

    def post(self, sender, addressee, letter):
        """Prints a parcel and keeps it to be delivered."""
        way = f"{self.names[sender]}>{self.names[addressee]}"
        self.put(f"  #{len(self.parcels)} {way} {text(letter, self.names)}")
        self.parcels.append((sender, addressee, letter))

    def state(self, member):
        """The line that says how a node stands, and that of what it knows."""
        return [member.closing(self.names[member.core.me], self.registers), member.knowledge(self.names)]

    def stuck(self, under_way=None):
        """The line of a run that stands still, in a list: with no parcel under way, nodes wait, and no node is ready.
        Under way are the parcels that were never delivered, unless their numbers are given."""
        if under_way is None:
            under_way = set(range(len(self.parcels))) - self.delivered
        cores = [member.core for member in self.members]
        waiting = [core for core in cores if core.phase == WAITING]
        if under_way or not waiting or any(core.is_ready() for core in cores):
            return []
        return ["; ".join(["stuck: nothing under way", *map(self.wait, waiting)])]

    def wait(self, core):
        """That a node waits, and for whom."""
        awaited = [self.names[node] for node in core.awaited()]
        return " ".join([self.names[core.me], "waits", *(["for", *awaited] if awaited else [])])

    def close(self, with_state=False):
        """Prints how the nodes stand, perhaps with what each knows and whether the run stands still, and the verdict."""
        for member in self.members:
            for line in self.state(member)[: 2 if with_state else 1]:
                self.put(line)
        for line in self.stuck() if with_state else ():
            self.put(line)
        self.put("verdict sound")


def replay(plan, events, put, with_state=False):
    """Lets all events happen and puts each line that is printed, perhaps with the state of its node after each event;
    gives the fault, where there is one."""
    cluster = Replay(plan, put)
    for index, event in enumerate(events):
        if event[0] == "deliver" and event[1] >= len(cluster.parcels):
            return f"mx: no parcel: event {index}"
        member = cluster.happen(index, event)
        for line in cluster.state(member) if with_state else ():
            put(line)
    cluster.close(with_state)
    return None


# Explorations.


class Words:
    """The words of 32 bits of a PCG generator (XSH-RR over 64 bits of state), by a seed of 64 bits.

    The state and the increment are the first four words of another one that starts at the seed.
    """

    FACTOR = 6364136223846793005
    SEEDING = 11634580027462260723  # the increment of the generator of seeds

    def __init__(self, seed):
        words = []
        for _ in range(4):
            seed = (seed * self.FACTOR + self.SEEDING) & GREATEST
            words.append(self.mixed(seed))
        self.increment = (words[2] | words[3] << 32) | 1
        self.state = ((words[0] | words[1] << 32) + self.increment) & GREATEST
        self.step()

    def step(self):
        self.state = (self.state * self.FACTOR + self.increment) & GREATEST

    @staticmethod
    def mixed(state):
        """The word of a state: its upper bits folded, and rotated by the uppermost five."""
        folded = ((state >> 18 ^ state) >> 27) & 0xFFFFFFFF
        turn = state >> 59
        return (folded >> turn | folded << (32 - turn)) & 0xFFFFFFFF

    def next(self):
        word = self.mixed(self.state)
        self.step()
        return word


# Of 16 kinds that a word draws, in this order, so many are of each. What follows is what each takes.
KINDS = (
    ("ask", 2, ("node",)),
    ("enter", 2, ("node",)),
    ("read", 1, ("node", "register")),
    ("write", 1, ("node", "register", "word")),
    ("leave", 2, ("node",)),
    ("tick", 1, ("node",)),
    ("want", 1, ("node", "node")),
    ("restart", 1, ("node",)),
    ("deliver", 3, ("word",)),
    ("settle", 1, ("node", "section")),
    ("cancel", 1, ("node",)),
)

SETTLED = 17  # a drawn section to settle up to is below this

WINDOW = 64  # a delivery is of one of the newest parcels


def drawn(words, plan):
    """The next event; of a delivery the word, which chooses the parcel."""
    below = words.next() % 16
    for kind, count, arguments in KINDS:
        if below < count:
            break
        below -= count
    return [kind] + [drawn_argument(words, plan, argument) for argument in arguments]


def drawn_argument(words, plan, argument):
    word = words.next()
    if argument == "node":
        return plan["nodes"][word % len(plan["nodes"])]
    if argument == "register":
        return plan["registers"][word % len(plan["registers"])]
    if argument == "section":
        return word % SETTLED
    return word


def run_drawn(plan, seed, steps):
    """Draws so many events and lets them happen; gives the cluster and the lines that it printed."""
    lines = []
    cluster = Replay(plan, lines.append)
    words = Words(seed)
    for index in range(steps):
        event = drawn(words, plan)
        if event[0] == "deliver":
            sent = len(cluster.parcels)
            if sent == 0:
                continue
            event[1] = sent - 1 - event[1] % min(sent, WINDOW)
        cluster.happen(index, event)
    return cluster, lines


def explore(plan, seed, steps, put):
    """Puts the counts of a run of drawn events, and the verdict."""
    cluster, lines = run_drawn(plan, seed, steps)
    entered = sum(": entered " in line for line in lines)
    put(f"explored {steps}, entered {entered}, sent {len(cluster.parcels)}")
    put("verdict sound")


# Walks: events that suit the state of the cluster.

LOSS = 4  # of 256 parcels that are taken up, so many are lost
REPEAT = 8  # of 256 steps, so many deliver one of the newest parcels, perhaps again


def byte(word):
    """The lowest eight bits of a word as a number, in which the lowest six are worth more than the two above."""
    low, above = word & 63, word >> 6 & 3
    return low << 2 | above


class Walk:
    """A cluster in which events are drawn by its state, and the parcels that are under way there."""

    def __init__(self, plan, seed, loss=LOSS, repeat=REPEAT, in_order=False):
        self.lines, self.events = [], []
        self.cluster = Replay(plan, self.lines.append)
        self.words = Words(seed)
        self.loss, self.repeat, self.in_order = loss, repeat, in_order
        self.flying = []  # where one is taken out, the last takes its place

    def walk(self, steps):
        for _ in range(steps):
            before = len(self.cluster.parcels)
            event = self.drawn(before)
            if event is not None:
                self.cluster.happen(len(self.events), event)
                self.events.append(event)
            self.flying += range(before, len(self.cluster.parcels))
        return self

    def drawn(self, sent):
        """The event of the next step, or none."""
        word = self.words.next()
        if byte(word) < self.repeat:
            if sent == 0:
                return None
            return ["deliver", self.first(sent - 1 - self.words.next() % min(sent, WINDOW))]
        chance = word % 64
        if 4 <= chance < 52 and self.flying:
            return self.taken_up()
        return self.acts(self.actor(chance))

    def first(self, number):
        """The parcel that is delivered in place of this one: in order, the oldest of it and of those under way from and to
        the same nodes."""
        if not self.in_order:
            return number
        link = self.cluster.parcels[number][:2]
        return min([number, *(k for k in self.flying if self.cluster.parcels[k][:2] == link)])

    def taken_up(self):
        number = self.first(self.flying[self.words.next() % len(self.flying)])
        place, last = self.flying.index(number), self.flying.pop()
        if place < len(self.flying):
            self.flying[place] = last
        return None if byte(self.words.next()) < self.loss else ["deliver", number]

    def actor(self, chance):
        """The place of the node that acts: any, or the next that may enter or is inside."""
        members = self.cluster.members
        drawn = self.words.next() % len(members)
        if chance >= 4:
            for node in [*range(drawn, len(members)), *range(drawn)]:
                core = members[node].core
                if core.phase == INSIDE or core.phase == WAITING and core.permitted():
                    return node
        return drawn

    def acts(self, node):
        """What a node does by itself, if it does something."""
        name, member = self.cluster.names[node], self.cluster.members[node]
        if member.core.phase == IDLE:
            return self.idles(name, member, self.words.next() % 16)
        if member.core.phase == WAITING:
            return self.waits(name, member.core, self.words.next() % 64)
        return self.is_inside(node, self.words.next() % 16)

    def idles(self, name, member, chance):
        if chance < 2:
            return ["ask", name]
        if chance == 2:
            return ["want", name, self.one_of(self.cluster.names)]
        if chance == 3:
            return ["settle", name, member.journal.gapless()]
        return None

    def waits(self, name, core, chance):
        if chance == 0:
            return ["cancel", name]
        if core.permitted():
            return ["enter", name]
        if chance < 4 or not self.flying:
            return ["tick", name]
        return None

    def is_inside(self, node, chance):
        name, member = self.cluster.names[node], self.cluster.members[node]
        if member.journal.lacks_before(member.core.mine):
            return ["want", name, self.one_of(self.cluster.names[node + 1 :] + self.cluster.names[:node])]
        if chance < 5:
            return ["read", name, self.one_of(self.cluster.registers)]
        if chance < 10:
            return ["write", name, self.one_of(self.cluster.registers), self.words.next() % 1000]
        return ["leave", name]

    def one_of(self, names):
        return names[self.words.next() % len(names)]

    def counts(self):
        """How many sections were entered, and how many parcels sent."""
        return sum(": entered " in line for line in self.lines), len(self.cluster.parcels)


def conditions(words):
    """What the words after a number of steps say of the parcels of a walk."""
    return (*map(int, words[:2] or (LOSS, REPEAT)), words[2:] == ["in-order"])


def explore_walk(plan, seed, steps, words, put):
    """Puts the counts of a walk, and the verdict."""
    entered, sent = Walk(plan, seed, *conditions(words)).walk(steps).counts()
    put(f"explored {steps}, entered {entered}, sent {sent}")
    put("verdict sound")


def load(path):
    with open(path) as file:
        return json.load(file)


def main():
    lines = []
    if sys.argv[1] in ("explore", "walk"):
        plan = load(sys.argv[2])
        if sys.argv[1] == "explore":
            explore(plan, int(sys.argv[3]), int(sys.argv[4]), lines.append)
        else:
            explore_walk(plan, int(sys.argv[3]), int(sys.argv[4]), sys.argv[5:], lines.append)
        sys.stdout.write("".join(line + "\n" for line in lines))
        return
    with_state = sys.argv[1] == "state"
    plan, events = sys.argv[2:] if with_state else sys.argv[1:]
    fault = replay(load(plan), load(events), lines.append, with_state)
    sys.stdout.write("".join(line + "\n" for line in lines))
    if fault is not None:
        sys.stderr.write(fault + "\n")
        sys.exit(1)


if __name__ == "__main__":
    main()
