"""The dependencies between transactions, and the cycles in them.

An edge leads to a transaction from one that comes before it in each order that explains the reads:

    ww    its version comes after the other's version of the same key
    wr    it read the other's version
    rw    it made the version after the one that the other read
    client, time    the same client called it later; the other had ended before it began

Where a key has several lists, real time alone says which came first; such edges are `timed`. The
order of real time needs few edges: an ended transaction leads to a node for that moment, these
form a chain, and the last one before a transaction began leads to it.
"""
from bisect import bisect_left, bisect_right
from collections import namedtuple

from .lists import shown
from .record import COMMITTED

# To which node an edge leads, its kind, whether it is timed, and its explanation: a text, the
# key, and two values.
Edge = namedtuple("Edge", "to kind timed text key x y")

APPENDED = "{a} appended {x} to {key}, and {b} appended {y} after it"
READ = "{a} appended {x} to {key}, and {b} read it"
SHORTER = "{a} read {key} up to {x}, before {b} appended {y}"
SHORTER_SCAN = "{a} scanned {key} up to {x}, before {b} appended {y}"
ABSENT = "{a} read {key} as [], before {b} began it with {y}"
PHANTOM = "{a} scanned past {key}, before {b} began it with {y}"
ENDED = "{a} appended {x} to {key}, and {b} deleted the list"
READ_ENDED = "{a} read {key} up to {x}, before {b} deleted the list"
NEXT = "{a} appended {x} to {key}, and later {b} began another list with {y}"
READ_NEXT = "{a} read {key} up to {x}, before {b} began another list with {y}"
GONE = "{a} appended {x} to {key}, and later {b} read it as []"
CLIENT = "{a} came before {b} at the same client"
TIME = "{a} ended before {b} began"

WINDOW = 4
ORDERS = ("client", "time")


class Graph:
    """The edges of a history, by the node that they leave."""

    def __init__(self, history, by_time):
        self.history, self.transactions = history, history.transactions
        self.edges = [[] for _ in history.transactions]
        for it in history.lists.values():
            self.add_list(it)
        for key in history.keys.values():
            if not key.deletes and len(key.lists) == 1:
                for read in key.absent:
                    self.add_absent(read, key.lists[0], False)
            elif by_time and key.lists:
                self.order_lists(key)
        self.add_clients()
        if by_time:
            self.add_time()

    def add(self, a, b, kind, text, key, x, y, timed=False):
        if a is not None and b is not None and a is not b:
            self.edges[a.index].append(Edge(b.index, kind, timed, text, key, x, y))

    def add_list(self, it):
        """Adds what one list shows."""
        owners, values, key = it.owners, it.values, it.key
        for at in range(len(values) - 1):
            self.add(owners[at], owners[at + 1], "ww", APPENDED, key, values[at], values[at + 1])
        for by, length, scanned in it.reads:
            value = values[length - 1]
            self.add(owners[length - 1], by, "wr", READ, key, value, None)
            if length < len(values):
                text = SHORTER_SCAN if scanned else SHORTER
                self.add(by, owners[length], "rw", text, key, value, values[length])
        for ender in it.enders[:WINDOW]:
            self.add(owners[-1], ender, "ww", ENDED, key, values[-1], None)
            for by, length, _ in it.reads:
                if length == len(values):
                    self.add(by, ender, "rw", READ_ENDED, key, values[-1], None)

    def add_absent(self, read, it, timed):
        text = PHANTOM if read.scanned else ABSENT
        self.add(read.by, it.owners[0], "rw", text, it.key, None, it.values[0], timed)

    def order_lists(self, key):
        """Adds what the times of a key's lists show: no two of its lists are there at one time."""
        first, last = {}, {}
        for it in key.lists:
            touched = [by for by in it.owners if by] + [read.by for read in it.reads]
            first[it] = min(touched, key=lambda by: by.end)
            last[it] = max(touched, key=lambda by: by.begin)
        lists = sorted(key.lists, key=lambda it: first[it].end)
        for at, it in enumerate(lists):
            for later in lists[at + 1 : at + 1 + WINDOW]:
                if first[it].end < last[later].begin:
                    self.link(it, later)
                    break
            if at and first[it].end < last[lists[at - 1]].begin:
                self.turn(lists[at - 1], it, first, last)
        by_last = sorted(key.lists, key=lambda it: last[it].begin)
        ends = [first[it].end for it in lists]
        begins = [last[it].begin for it in by_last]
        for read in key.absent:
            before = bisect_left(ends, read.by.begin)
            if before:
                it = lists[before - 1]
                ender = it.enders[0] if it.enders else it.owners[-1]
                self.add(ender, read.by, "wr", GONE, key.name, it.values[-1], None, True)
            after = bisect_right(begins, read.by.end)
            if after < len(by_last):
                self.add_absent(read, by_last[after], True)

    def turn(self, one, other, first, last):
        """Adds that the first of two lists came later, or finds that both were there at once."""
        if first[one].end < last[other].begin:
            self.history.found(
                "fork-realtime",
                f"{one.key} has two lists at once, {shown(one.values)} and {shown(other.values)}",
                f"{first[one]} ended with the first before {last[other]} began with the second",
                f"{first[other]} ended with the second before {last[one]} began with the first",
            )
        else:
            self.link(other, one)

    def link(self, it, later):
        """Adds that one list of a key came before another."""
        first, x, y = later.owners[0], it.values[-1], later.values[0]
        self.add(it.owners[-1], first, "ww", NEXT, it.key, x, y, True)
        for by, length, _ in it.reads:
            if length == len(it.values):
                self.add(by, first, "rw", READ_NEXT, it.key, x, y, True)

    def add_clients(self):
        last = {}
        for it in sorted(self.transactions, key=lambda it: it.begin):
            self.add(last.get(it.client), it, "client", CLIENT, None, None, None)
            if it.outcome == COMMITTED:
                last[it.client] = it

    def add_time(self):
        ended = sorted(
            (it for it in self.transactions if it.outcome == COMMITTED), key=lambda it: it.end
        )
        ends = [it.end for it in ended]
        base = len(self.transactions)
        self.edges += [[] for _ in ended]
        for at, it in enumerate(ended):
            self.edges[it.index].append(time_edge(base + at))
            if at + 1 < len(ended):
                self.edges[base + at].append(time_edge(base + at + 1))
        for it in self.transactions:
            before = bisect_left(ends, it.begin)
            if before:
                self.edges[base + before - 1].append(time_edge(it.index))


def time_edge(to):
    return Edge(to, "time", True, TIME, None, None, None)


def components(nodes, successors):
    """Returns the strongly connected components of more than one node, by Tarjan's algorithm."""
    number, low, stack, found = {}, {}, [], []
    on_stack = set()
    for root in nodes:
        if root in number:
            continue
        number[root] = low[root] = len(number)
        stack.append(root)
        on_stack.add(root)
        path = [(root, iter(successors(root)))]
        while path:
            node, rest = path[-1]
            for to in rest:
                if to not in number:
                    number[to] = low[to] = len(number)
                    stack.append(to)
                    on_stack.add(to)
                    path.append((to, iter(successors(to))))
                    break
                if to in on_stack and number[to] < low[node]:
                    low[node] = number[to]
            else:
                path.pop()
                if path and low[node] < low[path[-1][0]]:
                    low[path[-1][0]] = low[node]
                if low[node] == number[node]:
                    found_one = []
                    while True:
                        top = stack.pop()
                        on_stack.discard(top)
                        found_one.append(top)
                        if top == node:
                            break
                    if len(found_one) > 1:
                        found.append(found_one)
    return found
