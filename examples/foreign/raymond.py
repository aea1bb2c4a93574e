"""The algorithm of Raymond (1989): a node enters once it has the privilege, which moves along the edges of a tree.

No message is acknowledged, so the network is fair: it loses none, and keeps the order of those of a link.
"""
import network

FLAWS = {
    "pass-inside": "a node that is inside passes the privilege on",
    "two-holders": "a node that passes the privilege on still counts as its holder",
    "ask-again": "a node sends a request for each that it queues, though it has asked",
    "forget-rest": "a node that passes the privilege on does not ask for it again, though others wait",
    "last-first": "a node gives the privilege to the last of its queue",
}


class Raymond(network.Node):
    def __init__(self, name, network):
        super().__init__(name, network)
        # the neighbour on the way to the privilege, or this node if it is here
        self.holder = {child: parent for parent, child in self.plan["edges"]}.get(name, name)
        self.queue, self.asked, self.asks = [], False, 0

    def ask(self):
        self.asks += 1
        self.queue.append(self.name)
        self.go_on()
        return self.asks

    def may_enter(self):
        return self.holder == self.name and self.queue[self.first()] == self.name

    def enter(self):
        del self.queue[self.first()]

    def leave(self):
        self.go_on()

    def request(self, sender):
        self.queue.append(sender)
        self.go_on()

    def privilege(self, sender):
        self.holder, self.asked = self.name, False
        self.go_on()

    def first(self):
        """The index of the first in the queue."""
        return -1 if self.flaw == "last-first" else 0

    def go_on(self):
        """Passes the privilege on, if another has to get it; then asks for it, if somebody waits here."""
        has_passed = self.assign_privilege()
        if not (has_passed and self.flaw == "forget-rest"):
            self.make_request()

    def assign_privilege(self):
        is_free = self.holder == self.name and (self.phase != "inside" or self.flaw == "pass-inside")
        if not (is_free and self.queue and self.queue[self.first()] != self.name):
            return False
        receiver = self.queue.pop(self.first())
        if self.flaw != "two-holders":
            self.holder, self.asked = receiver, False
        self.send(receiver, "privilege")
        return True

    def make_request(self):
        if self.holder != self.name and self.queue and (not self.asked or self.flaw == "ask-again"):
            self.send(self.holder, "request")
            self.asked = True


def plan_of(names):
    """A plan with a tree in which each node has at most two below it; the first has the privilege."""
    edges = [[names[(node - 1) // 2], names[node]] for node in range(1, len(names))]
    return network.plan_of("raymond", names, edges=edges, holder=names[0])


if __name__ == "__main__":
    network.main(Raymond, FLAWS, plan_of, __doc__, nodes=5, is_fair=True)
