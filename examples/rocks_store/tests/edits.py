"""Edits of the checker, each of which takes one of its rules out: a row has to notice it.

An edit has a name, a file, what stands there once, and what stands there then.
"""
LISTS, GRAPH, CYCLES = "checking/lists.py", "checking/graph.py", "checking/cycles.py"
RECORD = "checking/record.py"

EDITS = [
    # What a list shows by itself.
    ("forks", LISTS, "if values[:length] != it.values[:length]:", "if False:"),
    ("one list under two keys", LISTS, "elif it.key != name:", "elif False:"),
    (
        "a value in two lists",
        LISTS,
        'self.found("fork", f"{it.key} forks at',
        '(lambda *_: 0)("fork", f"{it.key} forks at',
    ),
    ("more lists than deletes", LISTS, "len(key.lists) > len(key.deletes) + 1", "False"),
    ("deletes allow lists", LISTS, "> len(key.deletes) + 1", "> 1"),
    ("a value twice in a list", LISTS, "elif places[value] is it:", "elif False:"),
    ("two appends of a value", LISTS, "if value in self.owner:", "if False:"),
    ("values of nobody", LISTS, "if self.since is None or value >= self.since:", "if False:"),
    ("values before the record", LISTS, "self.since is None or value >= self.since", "True"),
    ("values of another key", LISTS, "elif self.key_of[value] != it.key:", "elif False:"),
    ("aborted appends", LISTS, "elif by.outcome == ABORTED:", "elif False:"),
    ("intermediate appends", LISTS, "self.followed[last[key]] = value", "pass"),
    (
        "own deletes of own appends",
        LISTS,
        "self.followed[last.pop(key)] = DELETED",
        "last.pop(key)",
    ),
    ("reads of the future", LISTS, "if it.latest[length - 1] > by.end:", "if False:"),
    # Lost writes.
    ("lost writes", LISTS, "at == len(reads):", "True:"),
    ("lost before a later read", LISTS, "at = bisect_right(begins, by.end)", "at = 0"),
    ("aborted writes are not lost", LISTS, "if by.outcome == COMMITTED and value", "if value"),
    ("forked writes are not lost", LISTS, "self.forked.update(values)", "pass"),
    ("deleted writes are not lost", LISTS, "and value not in self.followed:", ":"),
    (
        "blind deletes lose nothing",
        LISTS,
        "if blind.has_one(by.begin, reader.end):",
        "if 0:",
    ),
    ("lists that vanish", LISTS, "if key.deletes:", "if 0:"),
    (
        "deletes end lists",
        LISTS,
        "if deletes.has_one(born, soonest[at].end):",
        "if 0:",
    ),
    ("lists that began later do not vanish", LISTS, "bisect_right(begins, seen.end)", "0"),
    (
        "lists that come back do not vanish",
        LISTS,
        "at == len(absent) or max(by.begin for by in who) > soonest[at].end",
        "at == len(absent)",
    ),
    (
        "deletes that read lose nothing",
        LISTS,
        "for it in key.deletes if it.ended is None",
        "for it in key.deletes",
    ),
    # What a transaction knows itself.
    (
        "own writes are read",
        LISTS,
        "if length < 0 or values[length:] != own.appended or own.deleted and length:",
        "if 0:",
    ),
    ("own deletes are read", LISTS, " or own.deleted and length:", ":"),
    ("own appends are no versions of others", LISTS, "values = values[:length]", "pass"),
    ("reads of two moments", LISTS, "elif own.before != values:", "elif False:"),
    ("own appends are scanned", LISTS, "self.read(by, owns, key, [], True)", "pass"),
    # Dependencies.
    (
        "ww",
        GRAPH,
        'self.add(owners[at], owners[at + 1], "ww"',
        'self.add(None, owners[at + 1], "ww"',
    ),
    ("wr", GRAPH, 'self.add(owners[length - 1], by, "wr"', 'self.add(None, by, "wr"'),
    ("rw", GRAPH, 'self.add(by, owners[length], "rw"', 'self.add(None, owners[length], "rw"'),
    ("rw of what is absent", GRAPH, "self.add_absent(read, key.lists[0], False)", "pass"),
    (
        "deletes after appends",
        GRAPH,
        'self.add(owners[-1], ender, "ww"',
        'self.add(None, ender, "ww"',
    ),
    ("deletes after reads", GRAPH, 'self.add(by, ender, "rw"', 'self.add(None, ender, "rw"'),
    ("phantoms", LISTS, "self.keys[name].absent.append(Read(by, 0, True))", "pass"),
    ("ends of scans", LISTS, "bisect_left(names, end)", "bisect_right(names, end)"),
    (
        "nothing of a key that begins anew",
        GRAPH,
        "if not key.deletes and len(key.lists) == 1:",
        "if key.lists:",
    ),
    ("calls that there are not", LISTS, 'raise ValueError(f"there is no call {word}")', "pass"),
    # Orders.
    ("clients", GRAPH, "self.add_clients()", "pass"),
    ("real time", GRAPH, "self.add_time()", "pass"),
    ("moments are a chain", GRAPH, "if at + 1 < len(ended):", "if False:"),
    ("what ended before", GRAPH, "before = bisect_left(ends, it.begin)", "before = len(ends)"),
    ("lists in time", GRAPH, "self.link(it, later)", "pass"),
    ("lists at one time", GRAPH, "self.turn(lists[at - 1], it, first, last)", "pass"),
    (
        "nothing after a list",
        GRAPH,
        'self.add(ender, read.by, "wr"',
        'self.add(None, read.by, "wr"',
    ),
    ("nothing before a list", GRAPH, "self.add_absent(read, by_last[after], True)", "pass"),
    # Cycles.
    ("cycles", CYCLES, "yield from self.of_component(nodes)", "yield from ()"),
    ("reads before orders", CYCLES, "for most in range(len(LEVELS)):", "for most in (2,):"),
    (
        "clients before real time",
        CYCLES,
        "2 if edge.timed else 1 if edge.kind",
        "2 if edge.timed else 2 if edge.kind",
    ),
    ("G0 first", CYCLES, 'for kinds in (("ww",), ("ww", "wr")):', 'for kinds in (("ww", "wr"),):'),
    ("G1c first", CYCLES, 'for kinds in (("ww",), ("ww", "wr")):', 'for kinds in (("ww",),):'),
    ("G-single first", CYCLES, "return cycle or self.shortest", "return self.shortest"),
    ("G2", CYCLES, "return cycle or self.shortest", "return cycle or None and self.shortest"),
    # Records.
    ("kills end what is open", RECORD, "it.end = before", "pass"),
    ("unknown outcomes end late", RECORD, "if outcome != UNKNOWN:", "if True:"),
    ("torn lines", RECORD, 'if line.endswith("\\n"):', "if True:"),
    ("lines that are no record", RECORD, 'if line.endswith("\\n"):', "if False:"),
    ("clocks", RECORD, "if at < last:", "if False:"),
    ("what was intended", RECORD, "else intends", "else []"),
    (
        "what a kill left open",
        RECORD,
        "    if begun:\n        yield begun, intends\n\n\ndef bound",
        "\n\ndef bound",
    ),
]
