"""A small serializable store in memory, whose clients take turns by chance, and its flaws.

It serves to try the checker on histories that nobody has written by hand: without a flaw nothing
may be found in any of them, and each flaw has to be found by its kind. Versions are kept by time;
reads are remembered at their time; a commit goes above them, refreshes what it has read, or aborts.
"""
import json
import random

# By which kinds each flaw shows in every history of so many kills and steps.
CYCLES = ("G-single", "G2")
FLAWS = {
    "reads-not-remembered": CYCLES,
    "writes-do-not-ask": CYCLES,
    "no-refresh": CYCLES,
    "no-low-water-after-crash": ("G-single-client", "G2"),
    "lease-without-summary": CYCLES,
    "no-sync": ("lost-write",),
}
SEEDS, KILLS, STEPS = 3, 5, 800


class Toy:
    """The store: the versions of each key, and the latest reads of each, with their owners."""

    def __init__(self, flaw):
        self.flaw = flaw
        self.versions, self.reads = {}, {}
        self.low_water, self.clock, self.synced = 0, 0, []

    def now(self):
        self.clock += 10
        return self.clock

    def get(self, key, time):
        """Returns what a key holds at a time, and when that was written."""
        for at, values in reversed(self.versions.get(key, ())):
            if at <= time:
                return values, at
        return [], 0

    def remember(self, key, time, owner):
        if self.flaw == "reads-not-remembered":
            return
        last, _ = self.reads.get(key, (0, None))
        if time > last:
            self.reads[key] = (time, owner)
        elif time == last:
            self.reads[key] = (time, None)

    def earliest(self, key, time, owner):
        """Returns the earliest time at which a transaction may write a key."""
        newest = self.versions.get(key, [(0, [])])[-1][0]
        if self.flaw == "writes-do-not-ask":
            return max(time, newest + 1)
        last, by = self.reads.get(key, (0, None))
        if by == owner and time >= last:
            last = 0
        return max(time, newest + 1, last + 1, self.low_water + 1)

    def commit(self, owner, time, read, writes):
        """Returns whether a transaction commits that read at a time these keys, and writes."""
        at = max((self.earliest(key, time, owner) for key in writes), default=time)
        if at > time and self.flaw != "no-refresh":
            for key in read:
                if self.get(key, at)[1] > time:
                    return False
            for key in read:
                self.remember(key, at, owner)
        for key, values in writes.items():
            self.versions.setdefault(key, []).append((at, values))
            self.versions[key].sort(key=lambda it: it[0])
        self.synced.append((at, list(writes)))
        self.clock = max(self.clock, at)
        return True

    def lease(self):
        """Moves the lease: the new holder knows the reads by a summary."""
        if self.flaw == "lease-without-summary":
            self.reads = {}

    def crash(self):
        """Loses what is in memory; a new lease begins above the clock's mark."""
        self.reads = {}
        mark = self.clock + 50
        if self.flaw == "no-sync":
            for at, keys in self.synced[-5:]:
                for key in keys:
                    self.versions[key] = [it for it in self.versions[key] if it[0] != at]
        if self.flaw == "no-low-water-after-crash":
            self.clock -= 200
        else:
            self.low_water = self.clock = mark
        self.synced = []


class Client:
    """A client in the midst of a transaction, one call of which it makes at a time."""

    def __init__(self, number):
        self.number, self.txn, self.lines, self.plan = number, 0, [], None

    def write(self, event, at, **rest):
        head = {"client": self.number, "txn": self.txn, "event": event, "at": at}
        self.lines.append(json.dumps({**head, **rest}) + "\n")


class Load:
    """The clients of a toy, their calls by chance."""

    def __init__(self, flaw, seed, clients=4, keys=6):
        self.chance, self.toy = random.Random(seed), Toy(flaw)
        self.keys = [f"k{at}" for at in range(keys)]
        self.value, self.moment, self.clients = 0, 0, clients

    def intend(self):
        ops = []
        for _ in range(self.chance.randint(1, 4)):
            key, which = self.chance.choice(self.keys), self.chance.random()
            if which < 0.45:
                ops.append(["read", key])
            elif which < 0.8:
                self.value += 1
                ops.append(["append", key, self.value])
            elif which < 0.9:
                ops.append(["scan", *sorted(self.chance.sample(self.keys, 2))])
            else:
                ops += [["read", key], ["delete", key]]
        return ops

    def seen(self, client, key):
        """Returns what a transaction reads: its own write, or else at its time."""
        if key in client.writes:
            return client.writes[key]
        if key not in client.read:
            client.read[key] = self.toy.get(key, client.time)[0]
            self.toy.remember(key, client.time, client.owner)
        return client.read[key]

    def step(self, client):
        self.moment += 1
        toy = self.toy
        if client.plan is None:
            client.txn += 1
            client.plan, client.ops = self.intend(), []
            client.read, client.writes = {}, {}
            client.owner, client.time = (client.number, client.txn), toy.now()
            client.write("begin", self.moment, intends=list(client.plan))
        elif client.plan:
            op = client.plan.pop(0)
            if op[0] == "read":
                client.ops.append([*op, self.seen(client, op[1])])
            elif op[0] == "append":
                client.writes[op[1]] = [*self.seen(client, op[1]), op[2]]
                client.ops.append(op)
            elif op[0] == "scan":
                inside = [key for key in self.keys if op[1] <= key < op[2]]
                found = [[key, self.seen(client, key)] for key in inside]
                client.ops.append([*op, [it for it in found if it[1]]])
            else:
                client.writes[op[1]] = []
                client.ops.append(op)
        else:
            done = toy.commit(client.owner, client.time, client.read, client.writes)
            outcome = "committed" if done else "aborted"
            client.write("end", self.moment, outcome=outcome, ops=client.ops)
            client.plan = None

    def runs(self, kills, steps):
        """Returns the runs of a history, each of so many steps, and a kill after each."""
        for number in range(kills + 1):
            clients = [Client(at) for at in range(self.clients)]
            for _ in range(steps):
                self.step(self.chance.choice(clients))
                if self.chance.random() < 0.02:
                    self.toy.lease()
            yield str(number), [(f"client-{it.number}", it.lines) for it in clients]
            self.toy.crash()
            self.moment += 1
