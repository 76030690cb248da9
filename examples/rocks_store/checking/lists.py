"""Infers from reads alone which lists a key had, in which order its values came, and what is wrong.

A key holds a list, to which transactions append values that are unique. So each read of a list is a
beginning of the longest one, and the order of the longest one is the order of versions. A delete
ends a list, and the next append begins another.
"""
import math
from bisect import bisect_left, bisect_right
from collections import Counter, namedtuple

from .record import ABORTED, COMMITTED

# What is wrong, by its kind: what it says, and on further lines what shows it.
Finding = namedtuple("Finding", "kind text lines")
DELETED = "the delete of the list"
# That a transaction read the beginning of a list, of so many values, and whether by a scan.
Read = namedtuple("Read", "by length scanned")
# That a transaction deleted a key, and the list of which it knew, or None.
Delete = namedtuple("Delete", "by ended")
SHOWN = 6
# How many findings of a kind are shown.
EACH = 3


def shown(values):
    """Returns a list as text, the last values alone where it is long."""
    text = ", ".join(map(str, values[-SHOWN:]))
    return f"[.. {len(values) - SHOWN} more, {text}]" if len(values) > SHOWN else f"[{text}]"


def between(earlier, later):
    """Returns the time between two moments as text."""
    return f"{(later - earlier) / 1e6:.3f} ms"


class List:
    """One list of a key, from its first append to the delete that ends it.

    It has its values as far as they were read, and who read so far; all reads of it, and who
    deleted it after a read; and of each place who appended the value there, and when the last one
    began that appended to it so far.
    """

    __slots__ = ("key", "values", "witness", "reads", "enders", "owners", "latest")

    def __init__(self, key, values, by):
        self.key, self.values, self.witness = key, values, by
        self.reads, self.enders, self.owners, self.latest = [], [], [], []


class Key:
    """What is known of one key: its lists, who read nothing, and who may have deleted it."""

    __slots__ = ("name", "lists", "absent", "deletes")

    def __init__(self, name):
        self.name, self.lists, self.absent, self.deletes = name, [], [], []


def early(by, it):
    """Says which values of a list were appended by who began after its reader had ended."""
    later = [at for at, owner in enumerate(it.owners) if owner and owner.begin > by.end]
    for at in later[:EACH]:
        owner = it.owners[at]
        after = between(by.end, owner.begin)
        yield f"{owner} appended {it.values[at]} to it, and began {after} after {by} had ended"


class Own:
    """What a transaction itself knows of one key: what it read first, and what it wrote then."""

    __slots__ = ("before", "deleted", "appended")

    def __init__(self):
        self.before, self.deleted, self.appended = None, False, []


class Spans:
    """When some transactions were under way."""

    __slots__ = ("spans", "ends")

    def __init__(self, transactions):
        self.spans = sorted((by.begin, by.end) for by in transactions)
        self.ends = [-math.inf]
        for _, end in self.spans:
            self.ends.append(max(self.ends[-1], end))

    def has_one(self, begin, end):
        """Returns whether one of them may have come between two moments."""
        return self.ends[bisect_left(self.spans, (end,))] > begin


class Findings:
    """How often each kind of fault was found, and the first ones of each."""

    def __init__(self):
        self.counts, self.first = Counter(), []

    def add(self, kind, text, *lines):
        self.counts[kind] += 1
        if self.counts[kind] <= EACH:
            self.first.append(Finding(kind, text, lines))


class History:
    """All transactions, the lists of all keys, and what is wrong with these.

    Values below `since` were appended before the record begins, and have no owner in it.
    """

    def __init__(self, since=None):
        self.transactions, self.keys, self.lists = [], {}, {}
        # Of each value: who appended it to which key, and by what the same one followed it up.
        self.owner, self.key_of, self.followed = {}, {}, {}
        self.scans, self.forked, self.since = [], set(), since
        self.findings = Findings()
        self.found = self.findings.add
        self.operations = 0

    def key(self, name):
        it = self.keys.get(name)
        if it is None:
            it = self.keys[name] = Key(name)
        return it

    def add(self, transaction, ops):
        """Takes a transaction with what it did, or with what it intended unless it committed."""
        transaction.index = len(self.transactions)
        self.transactions.append(transaction)
        self.operations += len(ops)
        if transaction.outcome == COMMITTED:
            self.follow(transaction, ops)
        else:
            self.suppose(transaction, ops)

    def suppose(self, by, ops):
        """Takes the writes that may have been made, or that must not have been."""
        last = {}
        for op in ops:
            if op[0] == "append":
                self.append(by, op[1], op[2], last)
            elif op[0] == "delete" and by.outcome != ABORTED:
                self.key(op[1]).deletes.append(Delete(by, None))
                self.drop(op[1], last)

    def append(self, by, key, value, last):
        if value in self.owner:
            self.found("value-twice", f"{self.owner[value]} and {by} both append {value}")
        self.owner[value], self.key_of[value] = by, key
        if key in last:
            self.followed[last[key]] = value
        last[key] = value
        self.key(key)

    def drop(self, key, last):
        """Notes that a transaction deletes what it has appended itself."""
        if key in last:
            self.followed[last.pop(key)] = DELETED

    def follow(self, by, ops):
        """Takes what a committed transaction did, call for call."""
        owns, last = {}, {}
        for op in ops:
            word = op[0]
            if word == "read":
                self.read(by, owns, op[1], op[2], False)
            elif word == "append":
                owns.setdefault(op[1], Own()).appended.append(op[2])
                self.append(by, op[1], op[2], last)
            elif word == "scan":
                present = [key for key, _ in op[3]]
                for key, values in op[3]:
                    self.read(by, owns, key, values, True)
                self.settle(by, owns, op[1], op[2], present)
            elif word == "delete":
                self.delete(by, owns, op[1])
                self.drop(op[1], last)
            else:
                raise ValueError(f"there is no call {word}")

    def read(self, by, owns, name, values, scanned):
        """Takes a read, and compares it with what the transaction itself has read and written."""
        own = owns.get(name)
        if own is None:
            own = owns[name] = Own()
        elif own.deleted or own.appended:
            length = len(values) - len(own.appended)
            if length < 0 or values[length:] != own.appended or own.deleted and length:
                wrote = f"{'a delete and ' if own.deleted else ''}{shown(own.appended)}"
                text = f"{by} read {name} as {shown(values)} after its own {wrote}"
                self.found("internal", text)
                return
            if own.deleted:
                return
            values = values[:length]
        if own.before is None:
            own.before = values
            self.take(by, name, values, scanned)
        elif own.before != values:
            text = f"{by} read {name} as {shown(own.before)} and then as {shown(values)}"
            self.found("internal", text)

    def settle(self, by, owns, first, end, present):
        """Takes what a scan has passed over: now where the transaction knows of it, or later."""
        seen = set(present)
        passed = [key for key in owns if first <= key < end and key not in seen]
        for key in passed:
            self.read(by, owns, key, [], True)
        self.scans.append((by, first, end, tuple(present + passed)))

    def take(self, by, name, values, scanned):
        """Takes what a transaction read of others."""
        if not values:
            self.key(name).absent.append(Read(by, 0, scanned))
            return
        it = self.lists.get(values[0])
        if it is None:
            it = self.lists[values[0]] = List(name, values, by)
            self.key(name).lists.append(it)
        elif it.key != name:
            self.found("fork", f"{it.witness} read {values[0]} in {it.key}, and {by} in {name}")
            return
        else:
            length = min(len(values), len(it.values))
            if values[:length] != it.values[:length]:
                self.found("fork", f"{it.key} forks", *self.both(it.witness, it.values, by, values))
                self.forked.update(values)
                return
            if len(values) > len(it.values):
                it.values, it.witness = values, by
        it.reads.append(Read(by, len(values), scanned))

    @staticmethod
    def both(one, of_one, other, of_other):
        return f"{one} read it as {shown(of_one)}", f"{other} read it as {shown(of_other)}"

    def delete(self, by, owns, name):
        own = owns.setdefault(name, Own())
        key = self.key(name)
        if not own.deleted:
            known = own.before
            key.deletes.append(Delete(by, None if known is None else known[:1]))
        own.deleted, own.appended = True, []

    def finish(self):
        """Draws what only the whole history shows."""
        self.pass_over()
        for key in self.keys.values():
            for delete in key.deletes:
                if delete.ended and delete.ended[0] in self.lists:
                    self.lists[delete.ended[0]].enders.append(delete.by)
        places = {}
        for it in list(self.lists.values()):
            self.place(it, places)
            self.name_owners(it)
            self.check_reads(it)
        for key in self.keys.values():
            self.count_lists(key)
            if key.deletes:
                self.find_vanished(key)
        self.find_lost(places)

    def pass_over(self):
        """Takes each key that a scan did not see as a read of nothing."""
        names = sorted(self.keys)
        for by, first, end, seen in self.scans:
            start, stop = bisect_left(names, first), bisect_left(names, end)
            if stop - start > len(seen):
                seen = set(seen)
                for name in names[start:stop]:
                    if name not in seen:
                        self.keys[name].absent.append(Read(by, 0, True))
        self.scans = []

    def place(self, it, places):
        """Notes in which list each value stands: in one, and there once."""
        for value in it.values:
            if value not in places:
                places[value] = it
            elif places[value] is it:
                text = f"{it.witness} read {it.key} as {shown(it.values)}, {value} in it twice"
                self.found("value-twice", text)
            else:
                other = places[value]
                evidence = self.both(other.witness, other.values, it.witness, it.values)
                self.found("fork", f"{it.key} forks at {value}", *evidence)

    def name_owners(self, it):
        """Finds who appended each value, when the last of these began, and who must not have."""
        latest = -math.inf
        for at, value in enumerate(it.values):
            by = self.owner.get(value)
            if by is None:
                if self.since is None or value >= self.since:
                    text = f"{it.witness} read {value} in {it.key}, which nobody appended"
                    self.found("made-up", text)
            elif self.key_of[value] != it.key:
                text = f"{it.witness} read {value} in {it.key}, to which nobody appended it"
                self.found("made-up", text)
            elif by.outcome == ABORTED:
                text = f"{it.witness} read {value} in {it.key}, which {by} appended and aborted"
                self.found("G1a", text)
                by = None
            else:
                latest = max(latest, by.begin)
            it.owners.append(by)
            it.latest.append(latest)

    def check_reads(self, it):
        """Looks for reads of what others went on to change, and of what nobody had begun."""
        for by, length, _ in it.reads:
            value = it.values[length - 1]
            after, owner = self.followed.get(value), it.owners[length - 1]
            if after is not None:
                text = f"{by} read {it.key} up to {value}, and {owner} went on with {after}"
                self.found("G1b", text)
            if it.latest[length - 1] > by.end:
                self.found("future-read", f"{by} read {it.key} up to {value}", *early(by, it))

    def count_lists(self, key):
        """A key has one list more than deletes at the most."""
        if len(key.lists) > len(key.deletes) + 1:
            one, other = key.lists[-2:]
            evidence = self.both(one.witness, one.values, other.witness, other.values)
            text = f"{key.name} began {len(key.lists)} times with {len(key.deletes)} deletes"
            self.found("fork", text, *evidence)

    def find_vanished(self, key):
        """Looks for lists that were not found, then nor later, before any delete of them."""
        absent = sorted((read.by for read in key.absent), key=lambda by: by.begin)
        begins, soonest = [by.begin for by in absent], soonest_ends(absent)
        deletes = Spans(it.by for it in key.deletes)
        for it in key.lists:
            owners = [by for by in it.owners if by and by.outcome == COMMITTED]
            who = owners + [read.by for read in it.reads]
            seen = min(who, key=lambda by: by.end)
            at = bisect_right(begins, seen.end)
            if at == len(absent) or max(by.begin for by in who) > soonest[at].end:
                continue
            born = it.owners[0].begin if it.owners[0] else -math.inf
            if deletes.has_one(born, soonest[at].end):
                continue
            after = between(seen.end, soonest[at].begin)
            text = f"{soonest[at]} read {key.name} as [], and nobody can have deleted its list"
            evidence = f"{seen} knew {shown(it.values)}, and ended {after} before that began"
            self.found("lost-write", text, evidence)

    def find_lost(self, places):
        """Looks for committed values that a transaction should have read, and nobody has."""
        unread, read = {}, self.forked.union(places)
        for value, by in self.owner.items():
            if by.outcome == COMMITTED and value not in read and value not in self.followed:
                unread.setdefault(self.key_of[value], []).append((value, by))
        for name, values in unread.items():
            self.find_lost_of(self.keys[name], values)

    def find_lost_of(self, key, values):
        reads = list(key.absent) + [read for it in key.lists for read in it.reads]
        reads.sort(key=lambda read: read.by.begin)
        begins = [read.by.begin for read in reads]
        soonest = soonest_ends([read.by for read in reads])
        # A delete that did not read may have taken any value along.
        blind = Spans(it.by for it in key.deletes if it.ended is None)
        for value, by in values:
            at = bisect_right(begins, by.end)
            if at == len(reads):
                continue
            reader = soonest[at]
            if blind.has_one(by.begin, reader.end):
                continue
            after = between(by.end, reader.begin)
            text = f"{by} appended {value} to {key.name} and committed, and no read holds it"
            self.found("lost-write", text, f"{reader} read {key.name}, and began {after} later")


def soonest_ends(transactions):
    """Returns for each place which transaction ends first of those from there on."""
    soonest = list(transactions)
    for at in range(len(soonest) - 2, -1, -1):
        if soonest[at + 1].end < soonest[at].end:
            soonest[at] = soonest[at + 1]
    return soonest
