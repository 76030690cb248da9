"""Reads the calls that the clients of a store have recorded.

Each client appends to a file of its own, `client-N.jsonl`, a line when it calls and a line when the
call returned:

    {"client":3,"txn":17,"event":"begin","at":NS,"intends":[OP..]}
    {"client":3,"txn":17,"event":"end","at":NS,"outcome":"committed","ops":[OP..]}

    OP  ["read",KEY,[V..]]  ["append",KEY,V]  ["scan",FROM,TO,[[KEY,[V..]]..]]  ["delete",KEY]

The outcome is committed, aborted or unknown. What is intended has no results. Of a transaction that
a kill left open the outcome is unknown. NS are nanoseconds of one clock that never goes back.
"""
import glob
import json
import math
import os

COMMITTED, ABORTED, UNKNOWN = "committed", "aborted", "unknown"
OUTCOMES = (COMMITTED, ABORTED, UNKNOWN)


class RecordError(Exception):
    """A line that no client of a store may write."""


class Transaction:
    """One transaction: who made it, when, and what became of it."""

    __slots__ = ("run", "client", "number", "begin", "end", "outcome", "index")

    def __init__(self, run, client, number, begin):
        self.run, self.client, self.number = run, client, number
        self.begin, self.end = begin, math.inf
        self.outcome, self.index = UNKNOWN, None

    def __str__(self):
        run = f"{self.run}:" if self.run else ""
        return f"{run}{self.client}/{self.number}"

    def close(self, at, outcome):
        """Notes how it ended. Nobody knows when an unknown outcome came about."""
        self.outcome = outcome
        if outcome != UNKNOWN:
            self.end = at


def closed(lines, run):
    """Returns each transaction of a client with what it did, or with what it intended."""
    begun, intends, last = None, None, -math.inf
    for number, line in enumerate(lines, 1):
        try:
            event = json.loads(line)
            at = event["at"]
            if at < last:
                raise RecordError(f"line {number}: the clock went back")
            last = at
            if event["event"] == "begin":
                if begun:
                    yield begun, intends
                begun = Transaction(run, event["client"], event["txn"], at)
                intends = event["intends"]
            elif begun and event["txn"] == begun.number and event["outcome"] in OUTCOMES:
                begun.close(at, event["outcome"])
                yield begun, event["ops"] if begun.outcome == COMMITTED else intends
                begun = None
            else:
                raise RecordError(f"line {number}: an end of what has not begun")
        except (ValueError, KeyError, TypeError) as fault:
            # (a kill may cut the last line short)
            if line.endswith("\n"):
                raise RecordError(f"line {number}: no record: {fault}") from None
    if begun:
        yield begun, intends


def bound(open_ones, before):
    """Notes that what was open when a process died was over before the next one began."""
    for it in open_ones:
        it.end = before


def read_runs(runs, take):
    """Gives each transaction of these runs to `take`, which returns nothing.

    A run is a name and the lines of each client, and the runs followed each other. A transaction
    of unknown outcome ended, if at all, before the next run began.
    """
    left_open = []
    for run, clients in runs:
        first, now_open = math.inf, []
        for name, lines in clients:
            try:
                for transaction, ops in closed(lines, run):
                    first = min(first, transaction.begin)
                    if transaction.outcome == UNKNOWN:
                        now_open.append(transaction)
                    take(transaction, ops)
            except (RecordError, LookupError, TypeError, ValueError) as fault:
                raise RecordError(f"{name}: {fault}") from None
        if first < math.inf:
            bound(left_open, first)
            left_open = []
        left_open += now_open


def lines_of(path):
    with open(path, encoding="utf-8", errors="replace") as file:
        yield from file


def runs_of(folders):
    """Returns each run in these folders: a folder with the files of clients, in order of names."""
    found = []
    for folder in folders:
        files = glob.glob(os.path.join(glob.escape(folder), "**", "client-*.jsonl"), recursive=True)
        found += sorted({os.path.dirname(path) for path in files})
    if not found:
        raise RecordError(f"there is no client-N.jsonl in {', '.join(folders)}")
    for folder in found:
        paths = sorted(glob.glob(os.path.join(glob.escape(folder), "client-*.jsonl")))
        name = os.path.basename(folder) if len(found) > 1 else ""
        yield name, [(path, lines_of(path)) for path in paths]
