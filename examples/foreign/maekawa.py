"""The algorithm of Maekawa (1985): a node enters once it has the lock of each arbiter in its quorum.

Messages may be late or lost, so an arbiter numbers its grants, and each letter names the request that it is about.
"""
import network

STEPS = {3: (0, 1), 4: (0, 1, 2), 5: (0, 1, 2), 6: (0, 1, 3), 7: (0, 1, 3)}  # from a node to its arbiters
FLAWS = {
    "grant-twice": "an arbiter gives its lock to each request at once",
    "any-release": "an arbiter takes any release for that of its lock",
    "ignore-inquiry": "a node ignores each inquiry",
    "keep-grant": "a node that gives a lock back still counts it",
    "last-first": "an arbiter gives its lock to the last of the waiting requests",
    "no-failed": "an arbiter tells no request that another comes first",
}


class Maekawa(network.Node):
    def __init__(self, name, network):
        super().__init__(name, network)
        self.quorum = self.plan["quorums"]["sets"][self.plan["nodes"].index(name)]
        # as one that asks: its clock, its last request; by arbiters, the grants, failures and inquiries for that request
        self.clock, self.stamp = 0, (0, name)
        self.grants, self.failures, self.inquiries = {}, set(), set()
        self.given_back = {}  # the greatest grant that each arbiter got back
        # as an arbiter: the request that has its lock; the grants so far; waiting requests; the last that ended, by nodes
        self.lock, self.granted = None, 0
        self.queue, self.ended = {}, {}

    def ask(self):
        self.clock += 1
        self.stamp, self.grants, self.failures, self.inquiries = (self.clock, self.name), {}, set(), set()
        for arbiter in self.quorum:
            self.send(arbiter, "request", stamp=self.stamp)
        return self.clock

    def tick(self):
        """Sends again each request without its grant, and the grant of the lock, since any may be lost."""
        for arbiter in self.quorum:
            if self.phase == "waiting" and arbiter not in self.grants:
                self.send(arbiter, "request", stamp=self.stamp)
        self.send_lock()

    def may_enter(self):
        return set(self.grants) == set(self.quorum)

    def leave(self):
        for arbiter in self.quorum:
            self.send(arbiter, "release", stamp=self.stamp)

    def is_waiting(self, arbiter, stamp):
        """Whether this request waits; if it has ended, its release may be lost, so the arbiter gets another."""
        if stamp != self.stamp or self.phase == "idle":
            self.send(arbiter, "release", stamp=stamp)
        return stamp == self.stamp and self.phase == "waiting"

    def locked(self, arbiter, stamp, grant):
        """Takes a grant, unless it is a late one that was given back."""
        if not self.is_waiting(arbiter, stamp) or arbiter in self.grants:
            return
        if grant <= self.given_back.get(arbiter, 0):
            self.send(arbiter, "relinquish", stamp=stamp, grant=grant)
        else:
            self.grants[arbiter] = grant
            self.failures.discard(arbiter)

    def failed(self, arbiter, stamp):
        if stamp == self.stamp and self.phase == "waiting" and arbiter not in self.grants:
            self.fail(arbiter)

    def inquire(self, arbiter, stamp, grant):
        """Remembers that the arbiter wants its grant back, which it gets once some arbiter has failed the request."""
        if self.flaw == "ignore-inquiry" or not self.is_waiting(arbiter, stamp):
            return
        if self.grants.get(arbiter) == grant:
            self.inquiries.add(arbiter)
            if self.failures:
                self.fail(arbiter)
        elif arbiter in self.grants:  # the inquiry is late, and that grant was given back
            self.send(arbiter, "relinquish", stamp=stamp, grant=grant)
        else:  # the grant is late
            self.give_back(arbiter, grant)
            self.fail(arbiter)

    def fail(self, arbiter):
        self.failures.add(arbiter)
        for inquirer in sorted(self.inquiries):
            self.give_back(inquirer, self.grants[inquirer])
        self.inquiries = set()

    def give_back(self, arbiter, grant):
        self.failures.add(arbiter)
        self.given_back[arbiter] = max(grant, self.given_back.get(arbiter, 0))
        if self.flaw != "keep-grant":
            self.grants.pop(arbiter, None)
        self.send(arbiter, "relinquish", stamp=self.stamp, grant=grant)

    def send_lock(self):
        if self.lock:
            stamp, grant = self.lock
            self.send(stamp[1], "locked", stamp=stamp, grant=grant)

    def grant(self):
        """Gives the lock to the waiting request that comes first."""
        if self.queue:
            stamp = (max if self.flaw == "last-first" else min)(self.queue.values())
            del self.queue[stamp[1]]
            self.granted += 1
            self.lock = stamp, self.granted
            self.send_lock()

    def is_late(self, sender, stamp):
        """Whether this request has ended, or a later one of its node has the lock or waits."""
        known = [*self.queue.values(), *([self.lock[0]] if self.lock else [])]
        later = any(other > stamp for other in known if other[1] == sender)
        return later or stamp[0] <= self.ended.get(sender, 0)

    def request(self, sender, stamp):
        self.clock = max(self.clock, stamp[0])
        if self.lock and self.lock[0] == stamp:
            self.send_lock()
        elif not self.is_late(sender, stamp):
            self.queue[sender] = stamp
            if self.lock and self.flaw != "grant-twice":
                self.rank(sender, stamp)
            else:
                self.grant()

    def rank(self, sender, stamp):
        """Fails a request that does not come first, and else asks for the lock back."""
        holder, grant = self.lock
        others = [other for name, other in self.queue.items() if name != sender]
        if holder[1] != sender and min([holder, *others]) < stamp:
            self.fail_request(stamp)
            return
        self.send(holder[1], "inquire", stamp=holder, grant=grant)
        if others and holder[1] != sender:
            self.fail_request(min(others))

    def fail_request(self, stamp):
        if self.flaw != "no-failed":
            self.send(stamp[1], "failed", stamp=stamp)

    def relinquish(self, sender, stamp, grant):
        if self.lock == (stamp, grant):
            self.queue.setdefault(sender, stamp)
            self.lock = None
            self.grant()

    def release(self, sender, stamp):
        """Ends a request, and the lock if it is that request's or an earlier one's; a release may come late, or twice."""
        self.ended[sender] = max(stamp[0], self.ended.get(sender, 0))
        if self.queue.get(sender, stamp) <= stamp:
            self.queue.pop(sender, None)
        if self.lock and (self.flaw == "any-release" or self.lock[0][1] == sender and self.lock[0] <= stamp):
            self.lock = None
            self.grant()


def plan_of(names):
    """A plan whose quorums meet, any two: the arbiters of a node lie these steps around the circle of all."""
    count = len(names)
    sets = [sorted(names[(node + step) % count] for step in STEPS[count]) for node in range(count)]
    return network.plan_of("maekawa", names, quorums={"kind": "listed", "sets": sets})


if __name__ == "__main__":
    network.main(Maekawa, FLAWS, plan_of, __doc__)
