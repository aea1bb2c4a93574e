"""The algorithm of Ricart and Agrawala (1981): a node enters once all others have replied to its request."""
import network

FLAWS = {
    "count-replies": "a node counts replies, and not who replied",
    "never-defer": "a node replies at once, even while it is inside or its own request comes first",
    "ignore-names": "of two requests with the same number, neither comes first",
    "keep-clock": "a request of another node does not raise the clock",
    "forget-reply": "a node that leaves replies only to one of those that it deferred",
}


class Ricart(network.Node):
    def __init__(self, name, network):
        super().__init__(name, network)
        self.clock, self.stamp = 0, None
        self.replies, self.replied = 0, set()  # how many replies the current request has, and of whom
        self.deferred = {}  # requests that get their reply when this node leaves

    def ask(self):
        """Requests a section of all others, with a stamp that is higher than all stamps seen."""
        self.clock += 1
        self.stamp, self.replies, self.replied = (self.clock, self.name), 0, set()
        self.tick()
        return self.clock

    def tick(self):
        """Sends the request again to those whose reply is missing, since either may be lost."""
        for other in self.others:
            if self.phase == "waiting" and other not in self.replied:
                self.send(other, "request", stamp=self.stamp)

    def may_enter(self):
        if self.flaw == "count-replies":
            return self.replies >= len(self.others)
        return self.replied == set(self.others)

    def leave(self):
        for other, stamp in self.deferred.items():
            self.send(other, "reply", stamp=stamp)
            if self.flaw == "forget-reply":
                break
        self.deferred = {}

    def goes_first(self, stamp):
        """Whether this node's own request comes before another: by number, then by name."""
        if self.flaw == "ignore-names":
            return self.stamp[0] < stamp[0]
        return self.stamp < stamp

    def request(self, sender, stamp):
        """Replies at once, unless this node is inside or waits, with a request that comes first."""
        if self.flaw != "keep-clock":
            self.clock = max(self.clock, stamp[0])
        is_first = self.phase != "idle" and self.goes_first(stamp)
        if is_first and self.flaw != "never-defer":
            self.deferred[sender] = max(stamp, self.deferred.get(sender, stamp))
        else:
            self.send(sender, "reply", stamp=stamp)

    def reply(self, sender, stamp):
        """Counts a reply to the current request; one to an earlier request is late."""
        if stamp == self.stamp:
            self.replies += 1
            self.replied.add(sender)


def plan_of(names):
    return network.plan_of("ricart", names)


if __name__ == "__main__":
    network.main(Ricart, FLAWS, plan_of, __doc__)
