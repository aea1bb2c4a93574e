"""A lock server with leases, and a bug: it grants an expired lease to the next client while the first is still inside.
Prints the trace of a run: three clients add 1 to a register in two sections each. Usage: lock_server.py [fixed]"""
import json
import sys

LEASE = 2  # turns of a client, before its lease may go to another


class LockServer:
    def __init__(self, is_fixed):
        self.is_fixed, self.holder, self.turns, self.sections = is_fixed, None, 0, 0

    def request(self, client):
        expired = self.turns >= LEASE and not self.is_fixed  # the holder is not asked: that is the bug
        if self.holder is not None and not expired:
            return None
        self.holder, self.turns, self.sections = client, 0, self.sections + 1
        return self.sections

    def release(self, client):
        if self.holder == client:
            self.holder = None


def note(act, client, outcome, **members):
    print(json.dumps({"act": act, "node": client, **members, "outcome": outcome}))


def client(name, server, registers):
    for _ in range(2):
        while (number := server.request(name)) is None:
            yield
        note("enter", name, "entered", number=number)
        value = registers["count"]
        note("read", name, "value", register="count", value=value)
        for _ in range(3):  # it is slow
            server.turns += 1
            yield
        registers["count"] = value + 1
        note("write", name, "written", register="count", value=value + 1)
        note("leave", name, "left", number=number)
        server.release(name)
        yield


server = LockServer("fixed" in sys.argv)
registers = {"count": 0}
running = [client(name, server, registers) for name in "abc"]
while running:
    running = [one for one in running if next(one, "ended") != "ended"]
