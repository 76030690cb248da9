"""Finds the cycles of a graph of dependencies, names them, and tells them line by line.

The names are those of Adya's phenomena. A cycle of ww edges alone is G0, one with wr edges G1c, one
with a single rw edge G-single, and any other G2. A name ends in `-client` where the cycle needs the
order of a client's calls, and in `-realtime` where it needs that of real time.
"""
from collections import deque

from .graph import ORDERS, PHANTOM, components
from .lists import between

LEVELS = ("", "-client", "-realtime")
STARTS, EDGES_TRIED, STEPS = 20, 300, 2_000_000


def level(edge):
    """Returns what an edge needs: reads alone, the order of a client, or real time."""
    return 2 if edge.timed else 1 if edge.kind == "client" else 0


class Search:
    """A search for cycles in a graph, which gives up after so many steps."""

    def __init__(self, graph):
        self.graph, self.edges = graph, graph.edges
        self.count = len(graph.transactions)
        self.steps = 0

    def all(self):
        """Returns a cycle for each component of the graph that has one, as a list of edges."""
        edges = self.edges
        whole = components(range(len(edges)), lambda node: [edge[0] for edge in edges[node]])
        for nodes in whole:
            yield from self.of_component(nodes)

    def of_component(self, nodes):
        for most in range(len(LEVELS)):
            found = False
            for part in self.parts(nodes, most, ("ww", "wr", "rw")):
                self.steps = 0
                cycle = self.worst(part, most)
                if cycle:
                    found = True
                    yield cycle
            if found:
                return

    def allowed(self, inside, most, kinds):
        """Returns a function from a node to its edges of these kinds inside a set."""

        def of(node):
            return [
                edge
                for edge in self.edges[node]
                if edge.to in inside
                and level(edge) <= most
                and (edge.kind in kinds or edge.kind in ORDERS)
            ]

        return of

    def parts(self, nodes, most, kinds):
        """Returns the components among these nodes by edges of these kinds and levels alone."""
        of = self.allowed(set(nodes), most, kinds)
        return components(nodes, lambda node: [edge.to for edge in of(node)])

    def worst(self, nodes, most):
        """Returns a cycle of the strongest kind that a component has."""
        for kinds in (("ww",), ("ww", "wr")):
            for part in self.parts(nodes, most, kinds):
                return self.shortest(part, self.allowed(set(part), most, kinds))
        cycle = self.single(nodes, most)
        return cycle or self.shortest(nodes, self.allowed(set(nodes), most, ("ww", "wr", "rw")))

    def shortest(self, nodes, of):
        """Returns the shortest cycle through one of the first nodes."""
        best = None
        for start in [node for node in nodes if node < self.count][:STARTS]:
            for edge in of(start):
                way = self.way(edge.to, start, of)
                if way is not None:
                    cycle = [(start, edge), *way]
                    if best is None or self.length(cycle) < self.length(best):
                        best = cycle
                    break
        return best

    def length(self, cycle):
        return sum(node < self.count for node, _ in cycle)

    def single(self, nodes, most):
        """Returns a cycle with one rw edge, the shortest of those that are looked at."""
        inside = set(nodes)
        every = self.allowed(inside, most, ("ww", "wr", "rw"))
        others = self.allowed(inside, most, ("ww", "wr"))
        best, tried = None, 0
        for node in nodes:
            for edge in every(node):
                if edge.kind == "rw" and tried < EDGES_TRIED and self.steps < STEPS:
                    tried += 1
                    way = self.way(edge.to, node, others)
                    if way is not None:
                        cycle = [(node, edge), *way]
                        if best is None or self.length(cycle) < self.length(best):
                            best = cycle
            if best and self.length(best) == 2:
                break
        return best

    def way(self, start, goal, of):
        """Returns the edges of a shortest way, in which steps along the chain of time are free."""
        came, queue = {start: None}, deque([start])
        while queue:
            node = queue.popleft()
            self.steps += 1
            if node == goal:
                way = []
                while came[node]:
                    way.append(came[node])
                    node = came[node][0]
                return way[::-1]
            for edge in of(node):
                if edge.to not in came:
                    came[edge.to] = (node, edge)
                    if edge.to >= self.count:
                        queue.appendleft(edge.to)
                    else:
                        queue.append(edge.to)
        return None

    def name(self, cycle):
        """Returns the kind of a cycle, and its common name where it has one."""
        data = [edge for _, edge in cycle if edge.kind not in ORDERS]
        skips = sum(edge.kind == "rw" for edge in data)
        kind = "G2" if skips > 1 else "G-single" if skips else "G1c"
        if all(edge.kind == "ww" for edge in data):
            kind = "G0"
        kinds = sorted(edge.kind for edge in data)
        keys = {edge.key for edge in data}
        common = ""
        if len(cycle) == 2 and kinds == ["rw", "ww"] and len(keys) == 1:
            common = "lost update"
        elif any(edge.text is PHANTOM for edge in data):
            common = "phantom"
        elif len(cycle) == 2 and kinds == ["rw", "rw"] and len(keys) == 2:
            common = "write skew"
        elif len(data) == 1 and kinds == ["rw"]:
            common = "stale read"
        return kind + LEVELS[max(level(edge) for _, edge in cycle)], common

    def lines(self, cycle):
        """Tells each edge between transactions, those along the chain of time as one."""
        told, waits = [], None
        for node, edge in self.turned(cycle):
            if waits is None:
                waits = node
            if edge.to < self.count:
                told.append(self.line(self.graph.transactions[waits], edge))
                waits = None
        return told

    def turned(self, cycle):
        """Returns a cycle so that it begins at a transaction."""
        at = next(at for at, (node, _) in enumerate(cycle) if node < self.count)
        return cycle[at:] + cycle[:at]

    def line(self, a, edge):
        b = self.graph.transactions[edge.to]
        text = edge.text.format(a=a, b=b, key=edge.key, x=edge.x, y=edge.y)
        if edge.kind == "time":
            text += f", by {between(a.end, b.begin)}"
        return f"{edge.kind:6} {a} -> {b}: {text}"
