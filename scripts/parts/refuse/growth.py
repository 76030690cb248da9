"""Refuses each growth of a command, or of tests, in turn.

The first run's first request for memory fails, the second run's second one, and so on, until a run
meets no failure. The words are one of these:

    [for-good] [replay[#N] | run[#N] | check[#N]] [TRACE [LOG]]
    [for-good | twice | last] tests CRATE [TEST..]
    all

A command, `replay` where none is named, has to end with status 5, `out of memory` and nothing
written; or with status 0 and all that it writes, where a library does without the memory (clap does
so once, while it reads the words); or, of `run`, with status 4 and `no thread`, where a thread could
not be started. The last run has to end with all that the command writes. With `#N` a `replay` or a
`check` asks for N growths, and N growths of a `run` end with `no thread`, one for each thread.
Without files it takes the program's stored run.

A refused test has to pass, where it tries once more, or to end with a line of NO_MEMORY. Of a test
that asks more than 10,000 times only some of the later requests are refused, ever further apart.
With `=N` behind a test's name exactly N runs of it pass: as many growths as it makes good. Of a long
test the last 64 requests are then refused too. With `#N` it asks for N growths in all. With `+` some
runs pass. Where a crate has long tests, name those to try: one that tries no call again tells
nothing here.

With `/BYTES` behind `=N` those N growths ask for no more bytes together, and behind `#N` all that
the run asks for. With `/ALIVE` behind that no more bytes are set aside at once, in a run in which
nothing is refused. A bound is what was measured and a few hundredths more.

`for-good` refuses the Nth growth and all behind it: so nothing is made good, and each call has to
come to its end all the same, within five minutes. `twice` makes each run that passes again with one more
refused, each of the 16 behind the Nth in turn. `last` refuses only the last 64 growths of a test.

`all` does what `scripts/tests.txt` says, two lines at a time, and begins no more once one has failed.
"""
import os
import re
import subprocess
import time
from concurrent.futures import ThreadPoolExecutor

from parts.builds import Builds, preloaded, words_of
from parts.frame import PARTS, ROOT, WRONG_WORDS, Fault, read, temporary
from parts.repository import named

COMMANDS = ("replay", "run", "check")
STORED = ["crates/tscache/data/trace.json", "crates/tscache/stdout"]
SECONDS = 300
NO_MEMORY = re.compile(
    r"^error: (NoMemory|AllocError|AllocFailed \{ \.\. \}|Open\(NoMemory\)|NoThread)$", re.M
)
# A name with how many growths there have to be, and the bounds in bytes; or with a `+`.
BOUNDED = re.compile(r"([^=#+]+)(?:([=#])(\d+)(?:/(\d+))?(?:/(\d+))?|(\+))?")
NEVER, FOR_GOOD, TWICE, LAST = 10**9, -1, 16, 64


class Refused(Exception):
    """What didn't hold where memory was refused."""


class Bounds:
    """What a name is followed by: the growths, the bytes, and what is set aside at once."""

    def __init__(self, words):
        found = BOUNDED.fullmatch(words)
        if not found:
            raise Fault(f"no name with bounds: {words}", WRONG_WORDS)
        self.name, sign, number, *bytes_of, some = found.groups()
        self.good = "some" if some else int(number) if sign == "=" else None
        self.total = int(number) if sign == "#" else None
        self.most_bytes, self.most_alive = (int(it) if it else None for it in bytes_of)

    def within(self, asked, counted):
        """Wants that bytes which were asked for, and what was set aside, are within the bounds."""
        if counted is None:
            raise Refused(f"{self.name}: the last run told no bytes")
        alive = counted[2]
        if self.most_bytes is not None and asked > self.most_bytes:
            raise Refused(f"{self.name}: {asked} bytes asked for, and not {self.most_bytes} at most")
        if self.most_alive is not None and alive > self.most_alive:
            raise Refused(f"{self.name}: {alive} bytes set aside at once, and not {self.most_alive} at most")
        also = f", and {alive} set aside at once, of {self.most_alive}" if self.most_alive else ""
        return f"{self.name}: {asked} bytes asked for, of {self.most_bytes}{also}"


class Run:
    """A run of a program in which growths were refused: what it told, and which sizes these had."""

    def __init__(self, status, output, errors, sizes, counted):
        self.status, self.output, self.errors = status, output, errors
        self.sizes, self.counted = sizes, counted
        self.told = (output + errors).decode(errors="replace")


class Refuser:
    """Runs a program whose growths are refused."""

    def __init__(self, preload, work, *words):
        self.preload, self.work, self.words = preload, work, words

    def __call__(self, at, more=0):
        """Runs it with a growth refused, and those that `more` says."""
        met, counted = f"{self.work}/met", f"{self.work}/counted"
        for path in (met, counted):
            if os.path.exists(path):
                os.remove(path)
        refusal = {"REFUSE_AT": str(at), "REFUSE_MORE": str(more), "REFUSE_TOLD": met, "REFUSE_COUNTED": counted}
        how = {"cwd": ROOT, "env": {**os.environ, **refusal, "LD_PRELOAD": self.preload}}
        try:
            ended = subprocess.run(self.words, stdin=subprocess.DEVNULL, capture_output=True, timeout=SECONDS, **how)
            status, output, errors = ended.returncode, ended.stdout, ended.stderr
        except subprocess.TimeoutExpired as late:
            status, output, errors = "too late", late.stdout or b"", late.stderr or b""
        sizes = [int(it) for it in read(met).split()] if os.path.exists(met) else []
        numbers = [int(it) for it in read(counted).split()] if os.path.exists(counted) else None
        return Run(status, output, errors, sizes, numbers)


class Test:
    """A test whose growths are refused, and what came of that."""

    def __init__(self, refuse, words, how):
        self.refuse, self.bounds = refuse, Bounds(words)
        self.more = FOR_GOOD if how == "for-good" else 0
        self.is_twice, self.is_last = how == "twice", how == "last"
        self.tried = self.pairs = self.passed = self.good = self.asked = 0

    def judge(self, run, at, more):
        """A run that was refused has to pass, or to tell want of memory."""
        if run.status == 0:
            self.passed += 1
            self.good += run.sizes[0]
        elif not NO_MEMORY.search(run.told):
            raise Refused(f"{self.bounds.name}, growth {at}, more {more}: status {run.status}: {run.told}")

    def refuse_twice(self, at):
        """Refuses a growth and each of those behind it in turn."""
        for more in range(1, TWICE + 1):
            run = self.refuse(at, more)
            if len(run.sizes) != 2:
                break
            self.judge(run, at, more)
            self.pairs += 1

    def refuse_each(self):
        """Refuses each growth, and returns the last one that was refused, and one that there is
        not."""
        at, last = 1, 0
        while (run := self.refuse(at, self.more)).sizes:
            if self.is_last:
                at *= 2
                continue
            self.judge(run, at, self.more)
            self.asked += run.sizes[0]
            if self.is_twice and run.status == 0:
                self.refuse_twice(at)
            self.tried, last = self.tried + 1, at
            at += 1 + (at // 10 if at > 10000 else 0)
        if run.status != 0:
            raise Refused(f"{self.bounds.name}: status {run.status} with nothing refused")
        return last, at

    def refuse_last(self, last, beyond):
        """Refuses each of the last requests that lie behind one that was refused."""
        first = last + 1
        while beyond - last > 1:
            middle = (last + beyond) // 2
            if self.refuse(middle, self.more).sizes:
                last = middle
            else:
                beyond = middle
        for at in range(max(first, last - LAST + 1), last + 1):
            run = self.refuse(at, self.more)
            if not run.sizes:
                raise Refused(f"{self.bounds.name}: asks for less memory than before")
            self.judge(run, at, self.more)
            self.tried += 1

    def run(self):
        """Returns lines that say what holds."""
        it = self.bounds
        last, beyond = self.refuse_each()
        if self.is_last or isinstance(it.good, int):
            self.refuse_last(last, beyond)
        if not self.tried:
            raise Refused(f"{it.name}: no growth was refused")
        if it.good == "some" and not self.passed:
            raise Refused(f"{it.name}: no growth made good")
        if it.good not in (None, "some", self.passed):
            raise Refused(f"{it.name}: {self.passed} growths made good, and not {it.good}")
        if it.total not in (None, self.tried):
            raise Refused(f"{it.name}: {self.tried} growths asked for, and not {it.total}")
        pairs = f" and {self.pairs} pairs of" if self.is_twice else ""
        lines = [f"{it.name}: {self.tried}{pairs} growths refused in turn, {self.passed} passed, the others told want of memory"]
        if it.most_bytes is not None:
            asked = self.asked if it.good is None else self.good
            lines.append(it.within(asked, self.refuse(NEVER).counted))
        return lines


def refuse_command(refuse, bounds, how, wanted):
    """Refuses each growth of a command, and returns lines that say what holds."""
    at, spared, threadless = 1, 0, 0
    while (run := refuse(at, FOR_GOOD if how == "for-good" else 0)).sizes:
        if run.status == 0 and run.output == wanted:
            spared += 1
        elif bounds.name == "run" and (run.status, run.output, run.errors) == (4, b"", b"no thread\n"):
            threadless += 1
        elif (run.status, run.output, run.errors) != (5, b"", b"out of memory\n"):
            raise Refused(f"growth {at}: status {run.status}, {len(run.output)} bytes written: {run.told}")
        at += 1
    if run.output != wanted:
        raise Refused(f"{bounds.name}: with nothing refused it writes something else: {run.told:.2000}")
    if at == 1:
        raise Refused(f"{bounds.name}: no growth was refused")
    found, what = (threadless, "told as no thread") if bounds.name == "run" else (at - 1, "asked for")
    if bounds.total not in (None, found):
        raise Refused(f"{bounds.name}: {found} growths {what}, and not {bounds.total}")
    line = bounds.within(run.counted[1] if run.counted else 0, run.counted)
    others = at - 1 - spared - threadless
    return [
        f"{bounds.name}: {at - 1} growths refused in turn: {others} ended with status 5, out of memory and nothing"
        f" written, {threadless} with no thread, and {spared} with all that is to be written",
        *([line] if bounds.most_bytes is not None else []),
    ]


def parsed(words):
    """Returns how growths are refused, the crate whose tests are called, or none, and the names."""
    how = words[0] if words and words[0] in ("for-good", "twice", "last") else None
    words = words[1:] if how else words
    if words[:1] == ["tests"] and len(words) > 1:
        return how, words[1], words[2:]
    if how in ("twice", "last"):
        raise Fault(f"{how} is for tests", WRONG_WORDS)
    return how, None, words


def refuse_all(words, builds, preload, work, report):
    """Does what the words say, and reports each part that holds by its lines."""
    how, crate, rest = parsed(words)
    if crate:
        program = builds.tests(crate)
        listed = subprocess.run([program, "--list"], capture_output=True, text=True).stdout if not rest else ""
        rest = rest or re.findall(r"^(.*): test$", listed, re.M)
        if not rest:
            raise Refused(f"{program}: there are no tests")
        for name in rest:
            refuse = Refuser(preload, work, program, Bounds(name).name)
            report(Test(refuse, name, how).run())
        return
    is_command = rest and rest[0].partition("#")[0] in COMMANDS
    bounds = Bounds(rest[0] if is_command else "replay")
    files = rest[1:] if is_command else rest
    files = [*files, *STORED[len(files) :]] if files else STORED
    wanted = b"right\n" if bounds.name == "check" else read(os.path.join(ROOT, files[1]))
    given = files if bounds.name == "check" else files[:1]
    refuse = Refuser(preload, work, builds.program(), bounds.name, *given)
    report(refuse_command(refuse, bounds, how, wanted))


def run_listed(cases, builds, preload, work):
    """Does what each row says, two at a time."""
    rows = named("growth")
    with ThreadPoolExecutor(2) as two:
        crates = sorted({it for row in rows for it in [parsed(row.split())[1]] if it})
        for _ in two.map(lambda it: it(), [builds.program, *(lambda it=it: builds.tests(it) for it in crates)]):
            pass

    def part(number, row):
        if cases.failed:
            return
        folder, lines, began = f"{work}/{number}", [], time.monotonic()
        os.mkdir(folder)
        try:
            refuse_all(row.split(), builds, preload, folder, lines.extend)
            why = None
        except Refused as fault:
            why = str(fault)
        took = f"{time.monotonic() - began:.0f} seconds"
        told = "\n".join(filter(None, [*lines, why]))
        if cases.expect(f"{took}: {row}", why is None, told=told):
            print(told, flush=True)

    with ThreadPoolExecutor(2) as two:
        for _ in two.map(part, range(len(rows)), rows):
            pass
    cases.expect(f"all {len(rows)} parts were begun", cases.passed, len(rows))


def arguments(parser):
    words_of(parser)
    parser.add_argument("word", nargs="*", help="what is refused; `all` for what the gate does")


def run(cases, given):
    with temporary() as work:
        preload = preloaded(work, f"{PARTS}/refuse/growth.c")
        builds = Builds(given, work)
        if given.word == ["all"]:
            run_listed(cases, builds, preload, work)
            return
        try:
            refuse_all(given.word, builds, preload, work, lambda lines: cases.expect("\n".join(lines), True))
        except Refused as fault:
            cases.expect(str(fault), False)
