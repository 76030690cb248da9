"""Runs the gate, and measures the processor minutes of each crate: its proof, its tests, its edits.

The command is `taskset -c 0,1 rt ci` where none is given: what the gate takes on two processors.
`rt ci` on all of them, `rt all check` or `rt must-fail NAME` can be measured too. The command runs in
a fresh clone of the commit that is checked out. What it prints goes to standard error, so that
standard output has the table alone, in Markdown. With --edits a list of the edits follows, with the
processor seconds of each.

Where the command is a whole `rt ci` and ends well, the table takes the place of the one between the
marks of docs/PROOFS.md, with the day and the commit; --into names another file, and --no-write none.
A crate that `rt ci` takes from what an earlier run kept is not measured: its row stays as it was.
`rt ci --anew` measures all. With --table the command runs here, the table goes to a file alone, and
what the command prints stays as it is: so the gate watches its own run.

Four times a second it looks at the processes below the command, of which one belongs to a crate by
its words and to an edit by its folder. What a process spends after the last look is in no column but
in the sum, as is what `rt` itself spends. Looking takes some hundredths of a processor, of another
one where the command alone is held to two.
"""
import argparse
import datetime
import os
import re
import resource
import shutil
import signal
import subprocess
import sys
import threading
import time
from collections import namedtuple

from parts.frame import MISSING, ROOT, Fault, call, needs_rt, say, temporary, told_by, write
from parts.repository import crates, edits_of

TICK = os.sysconf("SC_CLK_TCK")
PERIOD = 0.25
KINDS = ("proof", "tests", "edits")
GATE = ["taskset", "-c", "0,1", "rt", "ci"]
COLUMNS = ["Crate", "Proof", "Tests", "Edits", "Together"]
BEGIN, END = "<!-- gate: begin -->\n", "<!-- gate: end -->"
Measured = namedtuple("Measured", "day commit minutes processors")
ROW = re.compile(r"^\| `(\w+)` \| ([\d.]+) \| ([\d.]+) \| ([\d.]+) \| [\d.]+ \|$", re.M)
# What `rt ci` says of a crate that an earlier run proved.
KEPT = re.compile(rb"^(?:rt: )?(\w+) is kept: ")
MEASURED = re.compile(
    r"^Measured on (\d{4}-\d\d-\d\d) at commit `(\w+)` by `[^`]*`:\n"
    r"(\d+) minutes by the clock on (\d+) processors",
    re.M,
)
# The parent of all threads of the kernel, which there may be many of and which are never looked at
# again.
KERNEL = 2


def measured(text):
    """Returns when the table of a document was measured, of which commit, and how long that took on
    how many processors."""
    found = MEASURED.search(text.partition(BEGIN)[2].partition(END)[0])
    return Measured(*found.groups()) if found else None


def content(path):
    try:
        with open(path, "rb") as file:
            return file.read().decode(errors="replace")
    except OSError:
        return ""


def processes(skipped):
    """Returns the parent, the start and the processor seconds of each process that runs now, but
    for those of the kernel."""
    found = {}
    for name in os.listdir("/proc"):
        if not name.isdigit() or name in skipped:
            continue
        fields = content(f"/proc/{name}/stat").rpartition(")")[2].split()
        if fields and int(fields[1]) == KERNEL:
            skipped.add(name)
        elif fields:
            found[int(name)] = int(fields[1]), fields[19], (int(fields[11]) + int(fields[12])) / TICK
    return found


def below(top, running):
    """Returns which processes were started by the one called top, or by one of these."""
    known = {top: True}

    def is_below(pid):
        if pid not in known:
            known[pid] = False
            known[pid] = pid in running and is_below(running[pid][0])
        return known[pid]

    return [pid for pid in running if pid != top and is_below(pid)]


def edit_in(folder, crate):
    """Returns the edit that was made in this copy of a crate, or that there is none: among its edits
    the crate itself is proved once more."""
    for edit in edits_of(crate):
        lines = [line.partition(": ") for line in content(f"{ROOT}/{edit}").splitlines()]
        file = next((text for word, _, text in lines if word == "file"), "")
        text, was = content(f"{folder}/{file}"), content(f"{ROOT}/crates/{crate}/{file}")
        if text != was and all(it in text for word, _, it in lines[:3] if word == "new"):
            return os.path.basename(edit)
    return "the crate as it is"


class Work:
    """What a process works at: a crate's proof, its tests, or an edit."""

    def __init__(self, pid):
        words = content(f"/proc/{pid}/cmdline").split("\0")
        try:
            self.folder = os.readlink(f"/proc/{pid}/cwd")
        except OSError:
            self.folder = ""
        name = words[words.index("--crate-name") + 1] if "--crate-name" in words[:-1] else ""
        parts = self.folder.split("/")
        if not name and "crates" in parts[:-1]:
            name = parts[parts.index("crates") + 1]
        is_edit = parts[-1].startswith("rt-edit-")
        is_test = "--test" in words or any(word.endswith(f"{name}_tests.o") for word in words)
        self.crate = name
        self.kind = "edits" if is_edit else "tests" if is_test else "proof"
        self.edit = edit_in(self.folder, name) if is_edit else ""


def watch(top, seen, ended):
    """Keeps, until the command has ended, the work of each process below it and the most that it
    was seen to have spent."""
    skipped = set()
    while not ended.wait(PERIOD):
        running = processes(skipped)
        for pid in below(top, running):
            _, start, spent = running[pid]
            work, before = seen.get((pid, start), (None, 0))
            # A process that was forked has the words of its parent until it takes its own.
            seen[pid, start] = work if before > 1 else Work(pid), max(spent, before)


def stolen():
    """Returns how many minutes the host has taken from each processor for others, since the start
    of the machine."""
    lines = [line.split() for line in content("/proc/stat").splitlines() if line.startswith("cpu")]
    return {line[0]: int(line[8]) / TICK / 60 for line in lines[1:]}


def spent_on(seen, key):
    """Returns the seconds of all work, sorted by what the key makes of it."""
    spent = {}
    for work, seconds in seen.values():
        spent[key(work)] = spent.get(key(work), 0) + seconds
    return spent


def row_of(name, minutes):
    return f"| {' | '.join([name, *(f'{it:.1f}' for it in minutes), f'{sum(minutes):.1f}'])} |"


def rows_in(text):
    """Returns the minutes of each crate in the table of a document."""
    rows = ROW.findall(text.partition(BEGIN)[2].partition(END)[0])
    return {crate: [float(it) for it in minutes] for crate, *minutes in rows}


def table(seen, former):
    """Makes the table, with the former rows of crates that were not measured."""
    spent = spent_on(seen, lambda work: (work.crate, work.kind))
    yield f"| {' | '.join(COLUMNS)} |"
    yield "|---" * len(COLUMNS) + "|"
    sums = [0.0 for _ in KINDS]
    for crate in crates():
        minutes = former.get(crate) or [spent.get((crate, kind), 0) / 60 for kind in KINDS]
        sums = [a + b for a, b in zip(sums, minutes)]
        yield row_of(f"`{crate}`", minutes)
    yield row_of("all", sums)


def edit_lines(seen):
    spent = spent_on(seen, lambda work: (work.crate, work.edit))
    for crate in crates():
        of = [(seconds, edit) for (name, edit), seconds in spent.items() if name == crate and edit]
        for seconds, edit in sorted(of, reverse=True):
            yield f"{crate} {seconds:7.1f} s  {edit}"


def put_into(path, lines):
    """Puts lines between the marks of a file."""
    text = content(path)
    before, begin, rest = text.partition(BEGIN)
    _, end, after = rest.partition(END)
    if not begin or not end:
        raise Fault(f"{path} has no marks for the table", 1)
    with open(path, "w", encoding="utf-8") as file:
        file.write(before + begin + "\n".join(lines) + "\n" + end + after)


def pass_on(lines, to, kept):
    """Passes lines on, and keeps the names of the crates that were not proved anew."""
    for line in lines:
        to.write(line)
        to.flush()
        found = KEPT.match(line)
        if found:
            kept.add(found[1].decode())


def arguments(parser):
    parser.add_argument("--edits", action="store_true", help="list the edits too")
    parser.add_argument("--into", default=f"{ROOT}/docs/PROOFS.md", metavar="FILE", help="where the table is put")
    parser.add_argument("--no-write", action="store_true", help="print the table alone")
    parser.add_argument("--table", metavar="FILE", help="put the table there alone, and pass on what is printed")
    parser.add_argument("command", nargs=argparse.REMAINDER, help="what is measured")


def processors_of(words):
    """Returns how many processors the command may run on, by what `taskset` before it leaves."""
    before = words[: words.index("rt")] if "rt" in words else []
    return int(told_by(*before, "nproc"))


def main(given):
    words = given.command or GATE
    needs_rt()
    if not shutil.which(words[0]):
        raise Fault(f"the command {words[0]} is not on the PATH", MISSING)
    with temporary() as room:
        folder = ROOT if given.table else f"{room}/clone"
        if not given.table:
            call("git", "clone", "-q", ROOT, folder)
        return measure(words, folder, given)


def measure(words, folder, given):
    say(f"watching {' '.join(words)}")
    begun, taken = time.monotonic(), stolen()
    to = sys.stdout if given.table else sys.stderr
    started = subprocess.Popen(words, cwd=folder, stdin=subprocess.DEVNULL, stdout=subprocess.PIPE)
    signal.signal(signal.SIGTERM, lambda *_: started.terminate())
    seen, kept, ended = {}, set(), threading.Event()
    watcher = threading.Thread(target=watch, args=(started.pid, seen, ended))
    watcher.start()
    try:
        pass_on(started.stdout, to.buffer, kept)
        status = started.wait()
    finally:
        ended.set()
        watcher.join()
    say(f"{' '.join(words)} ended with status {status}")
    usage = resource.getrusage(resource.RUSAGE_CHILDREN)
    total, minutes = (usage.ru_utime + usage.ru_stime) / 60, (time.monotonic() - begun) / 60
    lost = ", ".join(f"{cpu} {now - taken.get(cpu, 0):.1f}" for cpu, now in stolen().items())
    commit = told_by("git", "rev-parse", "--short", "HEAD", cwd=folder)
    by_clock = f"{minutes:.0f} minutes by the clock on {processors_of(words)} processors"
    former = {crate: row for crate, row in rows_in(content(given.into)).items() if crate in kept}
    of_others = [f"Rows of an earlier run: {', '.join(f'`{it}`' for it in crates() if it in former)}."]
    lines = [
        f"Measured on {datetime.date.today()} at commit `{commit}` by `{' '.join(words)}`:",
        f"{by_clock}, {total:.0f} processor minutes.",
        *(of_others if former else []),
        "",
        *table(seen, former),
    ]
    lines_of_edits = ["", *edit_lines(seen)] if given.edits else []
    told = "\n".join([*lines, "", f"Minutes that the host took for others: {lost}.", *lines_of_edits])
    if given.table:
        write(given.table, f"{told}\n")
        return status
    print(told)
    if not status and " ".join(words).endswith(("rt ci", "rt ci --anew")) and not given.no_write:
        put_into(given.into, lines)
    return status
