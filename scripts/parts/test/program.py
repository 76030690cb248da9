"""Tests the program by whole commands: each example against its log, traces and logs at their limits.

The limits are 64 lists, 65,536 calls, 1,024 marks of a batch, 16,777,216 bytes of a trace and of a
log, keys of 4,096 bytes, and 65,536 lines of a log. For each there is a case at the limit and, where
the program has to refuse what is beyond, one that goes beyond. The grammars of the documents and
their pictures are compared with the program too.
"""
import json
import os
import pty
import re
import select
import subprocess
import threading
import time

from parts.builds import Builds, words_of
from parts.check.grammar import try_grammar
from parts.draw.documents import drawn
from parts.frame import ROOT, Cases, read, temporary, text_of, write
from parts.repository import files

MOST_LISTS, MOST_CALLS, MOST_MARKS, MOST_BYTES, LONGEST_KEY = 64, 65_536, 1_024, 16_777_216, 4096
OWNERS = ("11111111-1111-4111-8111-111111111111", "22222222-2222-4222-8222-222222222222")
HEAD = {"page_first": 64 * 33, "page_max": 1024 * 33, "min_pages": 2, "retention": 1000, "low_water": [5, 0]}
SECONDS = 300
# The data that a trace of 65,536 rotations may have: enough where dropped pages are freed, and too
# little where they are kept.
DROPPED_KIB = 36_000
# The one example whose log is of a run: its Adds stand in another order than a replay makes them.
OF_A_RUN = "two_threads"


class Program:
    """The program, and a folder for the files of its cases."""

    def __init__(self, path, folder):
        self.path, self.folder = os.path.abspath(path), folder

    def file(self, name, content):
        write(f"{self.folder}/{name}", content)
        return f"{self.folder}/{name}"

    def __call__(self, *words, folder=None, given=b""):
        """Returns the status and what was written to either stream. A run that takes too long has no status, and tells so.

        The program runs in the folder, where one is named, and `given` is its standard input.
        """
        try:
            ended = subprocess.run([self.path, *words], capture_output=True, input=given, cwd=folder, timeout=SECONDS)
        except subprocess.TimeoutExpired:
            return None, b"", b"it took too long"
        return ended.returncode, ended.stdout, ended.stderr

    def within(self, kib, *words):
        """Returns the status of a run that may have no more than these KiB of data, and what it
        told of a fault."""
        limited = Program("/bin/sh", self.folder)
        status, _, told = limited("-c", f'ulimit -d {kib} && exec "$0" "$@" >/dev/null', self.path, *words)
        return status, told


def key(number, length=2):
    return number.to_bytes(length, "big").hex()


def add(number, wall, owner=None, length=2):
    call = {"op": "add", "span": {"start": key(number, length)}, "time": [wall, 0], "now": [wall, 0]}
    return {**call, **({"owner": owner} if owner else {})}


def batch(marks, wall):
    """A batch of these numbers' keys."""
    return {"op": "batch", "marks": [{"span": {"start": key(i)}, "time": [wall, 0]} for i in marks], "now": [wall, 0]}


def get(number, length=2):
    return {"op": "get", "span": {"start": key(number, length)}}


def trace(lists, **head):
    return json.dumps({**HEAD, **head, "threads": lists}, separators=(",", ":")).encode()


def padded(text, size):
    """The same trace with spaces behind it, so that it has so many bytes."""
    return text + b" " * (size - len(text))


def mixed_lists():
    """As many lists and calls as a trace may have: of each sixteen calls fifteen are Adds, which
    rotate the pages often."""
    each = MOST_CALLS // MOST_LISTS
    return [
        [get(i) if i % 16 == 15 else add((i * MOST_LISTS + thread) % 4096, 10 + i, OWNERS[thread % 2]) for i in range(each)]
        for thread in range(MOST_LISTS)
    ]


def try_log(cases, program, name, path, command):
    """Expects that a command has a log of a trace, and that it is right beside that trace."""
    status, log, fault = program(command, path)
    cases.expect(f"{command} of {name}", (status, fault), (0, b""))
    beside = program.file("log", log)
    cases.expect(f"check of what {command} wrote of {name}", program("check", path, beside), (0, b"right\n", b""))
    return log


def example(name):
    """Returns the paths of a trace and a log of `examples/`, and their bytes."""
    paths = [f"{ROOT}/examples/{name}.{ending}" for ending in ("json", "log")]
    return *paths, *map(read, paths)


def try_examples(cases, program):
    for name in (it[len("examples/") : -len(".json")] for it in files("examples/*.json")):
        path, beside, _, log = example(name)
        if name != OF_A_RUN:
            cases.expect(f"replay of {name}", program("replay", path), (0, log, b""))
        cases.expect(f"check of {name}", program("check", path, beside), (0, b"right\n", b""))
        try_log(cases, program, name, path, "run")


def try_pictures(cases, program):
    """The pictures in the documents are what is drawn today."""
    for path, text in drawn(program.path).items():
        cases.expect(f"the picture {path}", text == text_of(path))


def joined(one, other):
    """Returns the later of two values, each a time and an owner, or their time without an owner."""
    if one[0] != other[0]:
        return max(one, other, key=lambda it: [int(part) for part in it[0].split(".")])
    return one if one == other else (one[0], "none")


def try_shown_page(cases, program):
    """The page that a picture shows answers as the program does, at each key and in each gap."""
    trace = json.loads(text_of("docs/pictures/page.json"))
    lines = [line.split() for line in text_of("docs/pictures/page.txt").splitlines()]
    expected, spans, lazy = [], [], None
    keys = [line[0] for line in lines if line[0] != "leaf"] + [None]
    for line in lines:
        if line[0] == "leaf":
            lazy = tuple(line[4:]) if line[4] != "none" else ("0.0", "none")
            continue
        after = keys[keys.index(line[0]) + 1]
        behind = {"end": after, "ends": "()"} if after else {"onward": "("}
        spans += [{"start": line[0]}, {"start": line[0], **behind}]
        expected += [joined(tuple(line[1:3]), lazy), joined(tuple(line[3:]), lazy)]
    trace["threads"][0] += [{"op": "get", "span": span} for span in spans]
    status, log, fault = program("replay", program.file("page.json", json.dumps(trace).encode()))
    told = [tuple(line.split()[4:]) for line in log.decode().splitlines() if " get " in line]
    cases.expect("the page of page_lazy.svg", (status, fault, told), (0, b"", expected))
    run = [f"{ROOT}/docs/pictures/copies.{ending}" for ending in ("json", "log")]
    cases.expect("the run of two_copies.svg", program("check", *run), (0, b"right\n", b""))


def try_grammars(cases, program):
    """The program reads what the grammars in the documents say."""
    own = Cases(False)
    try_grammar(own, program.path)
    cases.add("the grammars of FORMATS.md", own.passed, own.failed, 800)


def try_largest(cases, program):
    """A trace of as many lists, calls and bytes as there may be; and one with one more of each."""
    text = trace(mixed_lists())
    path = program.file("largest.json", padded(text, MOST_BYTES))
    for command in ("replay", "run"):
        log = try_log(cases, program, "the largest trace", path, command)
        cases.expect(f"lines of {command}", (log.count(b"\n"),), (MOST_CALLS,))
    beside = program.file("longer.log", log + b"0 0 low 0 5.0\n")
    told = (1, b"", b"log refused: fault 2\n")
    cases.expect("a log of one line more", program("check", path, beside), told)
    longer = program.file("longer.json", padded(text, MOST_BYTES + 1))
    more_calls = mixed_lists()
    more_calls[0].append({"op": "low"})
    called = program.file("calls.json", trace(more_calls))
    listed = program.file("lists.json", trace([[] for _ in range(MOST_LISTS + 1)]))
    for command in ("replay", "run"):
        cases.expect(f"{command} of a byte more", program(command, longer), (4, b"", b"input too long\n"))
        cases.expect(f"{command} of a call more", program(command, called), (1, b"", b"trace refused: fault 7\n"))
        cases.expect(f"{command} of a list more", program(command, listed), (1, b"", b"trace refused: fault 7\n"))


def try_lookups(cases, program):
    """A log as long in bytes as one can be: lookups alone, behind one Add of a long time."""
    last = 2**63 - 1
    first = {"op": "add", "span": {"start": key(0)}, "time": [last, 2**31 - 1], "owner": OWNERS[0], "now": [0, 0]}
    path = program.file("lookups.json", trace([[first] + [get(0)] * (MOST_CALLS - 1)]))
    ended = f" get 1 {last}.{2**31 - 1} {OWNERS[0]}\n".encode()
    for command in ("replay", "run"):
        log = try_log(cases, program, "lookups alone", path, command)
        cases.expect(f"lines of lookups by {command}", (log.count(ended), len(log) > 5_000_000), (MOST_CALLS - 1, True))
    path = program.file("later.json", trace([[first], [get(0)] * (MOST_CALLS - 1)]))
    log = try_log(cases, program, "a long list behind a short one", path, "run")
    cases.expect("lines of a long list behind a short one", log.count(b"\n1 "), MOST_CALLS - 1)


def try_keys(cases, program):
    """Keys of the greatest length, and one that is longer; and a page that such a key fills."""
    size = LONGEST_KEY + 32
    fits = [add(1, 20, None, LONGEST_KEY), get(1, LONGEST_KEY), add(2, 30, None, LONGEST_KEY), get(2, LONGEST_KEY)]
    path = program.file("keys.json", trace([fits], page_first=size, page_max=size))
    told = b"0 0 add 0 1 0 0\n0 1 get 1 20.0 none\n0 2 add 1 1 1 0\n0 3 get 2 30.0 none\n"
    for command in ("replay", "run"):
        cases.expect(f"{command} of keys that fill a page", program(command, path), (0, told, b""))
    path = program.file("small.json", trace([fits], page_first=64, page_max=size - 1))
    cases.expect("a page too small for one", program("replay", path), (1, b"", b"trace refused: fault 9 at call 1\n"))
    path = program.file("long.json", trace([[get(1), get(1, LONGEST_KEY + 1)]]))
    cases.expect("a key too long", program("replay", path), (1, b"", b"trace refused: fault 6 at call 2\n"))


def try_batches(cases, program):
    """Batches of as many marks as there may be, and of one more; and as many of them as a trace has
    room for."""
    path = program.file("batch.json", trace([[batch(range(MOST_MARKS), 20), get(0), get(MOST_MARKS - 1), batch([], 20), get(MOST_MARKS)]]))
    told = b"0 0 batch 0 1 1 0\n0 1 get 1 20.0 none\n0 2 get 1 20.0 none\n0 3 batch 1 0 0 0\n0 4 get 2 5.0 none\n"
    for command in ("replay", "run"):
        cases.expect(f"{command} of a batch of as many marks as there may be", program(command, path), (0, told, b""))
    path = program.file("more.json", trace([[batch(range(MOST_MARKS + 1), 20)]]))
    cases.expect("a batch of one mark more", program("replay", path), (1, b"", b"trace refused: fault 2 at call 1\n"))
    lists = [[batch(range(i, MOST_MARKS * 16 + i, 16), 20 + i) for i in range(6)] + [get(thread)] for thread in range(MOST_LISTS)]
    path = program.file("batches.json", padded(trace(lists), MOST_BYTES))
    for command in ("replay", "run"):
        try_log(cases, program, "as many batches as there is room for", path, command)


def try_rotations(cases, program):
    """More than a thousand pages that nothing may drop, and a known key on a page that is full."""
    adds = [add(i, 20 + i, None) for i in range(4000)]
    path = program.file("pages.json", trace([adds + [get(0), get(3999)]], page_first=66, page_max=132, retention=2**62))
    ends = [b"0 4000 get 4000 20.0 none", b"0 4001 get 4000 4019.0 none"]
    for command in ("replay", "run"):
        log = try_log(cases, program, "a thousand pages", path, command)
        cases.expect(f"the oldest and the newest by {command}", (log.splitlines()[-2:],), (ends,))
    adds = [add(0, 20), add(1, 20), add(0, 30), get(0), add(2, 30)]
    path = program.file("full.json", trace([adds], page_first=68, page_max=68))
    told = b"0 0 add 0 1 0 0\n0 1 add 1 1 0 0\n0 2 add 2 1 0 0\n0 3 get 3 30.0 none\n0 4 add 3 1 1 0\n"
    for command in ("replay", "run"):
        cases.expect(f"{command} of a known key on a full page", program(command, path), (0, told, b""))


def try_dropped_pages(cases, program):
    """The memory of dropped pages is given back: with as much as the last pages need, a long trace
    ends well, and no trace does that keeps all pages."""
    adds = [add(i % 2, 20 + i) for i in range(MOST_CALLS)]
    for retention, told in ((600, (0, b"")), (2**62, (5, b"out of memory\n"))):
        path = program.file("dropped.json", trace([adds], page_first=66, page_max=66, retention=retention))
        for command in ("replay", "run"):
            cases.expect(f"{command} of pages kept for {retention} ns", program.within(DROPPED_KIB, command, path), told)


def try_names(cases, program):
    """Names of files are taken as they are, and none is standard input."""
    _, _, text, log = example("two_readers")
    read_failed = (4, b"", b"read failed\n")
    for name in (" a b .json", "-", "two_readers.json "):
        for command in ("replay", "run"):
            told = program(command, name, folder=program.folder, given=text)
            cases.expect(f"{command} of {name!r}, of which there is no file", told, read_failed)
        program.file(name, text)
        for command in ("replay", "run"):
            told = program(command, name, folder=program.folder)
            cases.expect(f"{command} of a file {name!r}", told, (0, log, b""))
    beside = program.file("two_readers.log", log)
    told = program("check", " a b .json", os.path.basename(beside), folder=program.folder)
    cases.expect("check of a name with blanks", told, (0, b"right\n", b""))
    told = program("check", "-", "-", folder=program.folder, given=log)
    cases.expect("check of a hyphen against itself", told, (1, b"", b"log refused: fault 1 at line 1\n"))
    usage = b"usage: tscache replay FILE, run FILE or check FILE LOG\n"
    cases.expect("words in plenty", program("replay", *["x"] * 20_000), (2, b"", usage))
    cases.expect("a word more", program("check", "two_readers.json ", "two_readers.log", "more", folder=program.folder), (2, b"", usage))
    cases.expect("a word that is no text", program("replay", b"\xff"), (2, b"", usage))
    cases.expect("a long word", program("replay", "x" * 100_000), read_failed)
    missing = os.path.join(program.folder, "missing")
    cases.expect("a name of no file", program("replay", missing), read_failed)
    cases.expect("an empty name", program("replay", ""), read_failed)
    cases.expect("a name below a file", program("replay", os.path.join(beside, "missing")), read_failed)
    cases.expect("a folder", program("replay", program.folder), read_failed)


def try_pipes(cases, program):
    """A file is opened once and read from its beginning to its end: what a pipe gives is there but
    once."""
    trace_file, log_file, _, log = example("two_readers")
    pipe = os.path.join(program.folder, "pipe")
    os.mkfifo(pipe)

    def through(content_of, *words):
        def write():
            try:
                with open(pipe, "wb") as end:
                    end.write(read(content_of))
            except BrokenPipeError:
                pass

        threading.Thread(target=write, daemon=True).start()
        return program(*words)

    for command in ("replay", "run"):
        cases.expect(f"{command} of a pipe", through(trace_file, command, pipe), (0, log, b""))
    cases.expect("check of a trace in a pipe", through(trace_file, "check", pipe, log_file), (0, b"right\n", b""))
    cases.expect("check of a log in a pipe", through(log_file, "check", trace_file, pipe), (0, b"right\n", b""))


def try_hostile(cases, program):
    """Texts that are cut off or hold what no text may hold."""
    text, log = read(f"{ROOT}/crates/tscache/data/trace.json").rstrip(b"\n"), read(f"{ROOT}/crates/tscache/stdout")
    not_json = (1, b"", b"trace refused: fault 1\n")

    def refused(command, content):
        return program(command, program.file("hostile.json", content))

    for command in ("replay", "run"):
        told = [size for size in range(len(text)) if refused(command, text[:size]) != not_json]
        cases.expect(f"{command} of each beginning of a trace", (told,), ([],))
        cases.expect(f"{command} of 200 brackets", refused(command, b"[" * 200), not_json)
        cases.expect(f"{command} of a byte that is no text", refused(command, text.replace(b'"get"', b'"g\xfft"', 1)), not_json)
        cases.expect(f"{command} of blanks alone", refused(command, b" " * MOST_BYTES), not_json)
        cases.expect(f"{command} of a blank more", refused(command, b" " * (MOST_BYTES + 1)), (4, b"", b"input too long\n"))

    path = program.file("whole.json", text)

    def held(content):
        return program("check", path, program.file("hostile.log", content))

    ends = [i + 1 for i, byte in enumerate(log) if byte == ord("\n")]
    wanted, met = [], []
    for size in range(len(log)):
        line = log.count(b"\n", 0, size) + 1
        whole = size == 0 or size in ends
        wanted.append((3, b"wrong call %d\n" % line, b"") if whole else (1, b"", b"log refused: fault 1 at line %d\n" % line))
        met.append(held(log[:size]))
    cases.expect("check of each beginning of a log", (met,), (wanted,))
    cases.expect("check of a log of as many bytes as there may be", held(b" " * MOST_BYTES), (1, b"", b"log refused: fault 1 at line 1\n"))
    cases.expect("check of a log of a byte more", held(b" " * (MOST_BYTES + 1)), (4, b"", b"input too long\n"))
    low = b"0 0 low 0 5.0\n" * 65_536
    cases.expect("a log of as many lines as there may be", held(low), (3, b"wrong call 1\n", b""))
    cases.expect("a byte behind it", held(low + b"x"), (1, b"", b"log refused: fault 2\n"))


def lines_told(program, words, is_terminal):
    """Returns the lines that a command tells on a terminal in twenty seconds, or in three behind the first one, or in four on a pipe, and
    whether they are no more than one in two seconds. Then it ends the command.
    """
    reader, writer = pty.openpty() if is_terminal else os.pipe()
    began = time.monotonic()
    command = subprocess.Popen([program.path, *words], stdout=subprocess.DEVNULL, stderr=writer)
    os.close(writer)
    end = began + (20 if is_terminal else 4)
    told = b""
    while select.select([reader], [], [], max(0, end - time.monotonic()))[0]:
        try:
            read = os.read(reader, 100)
        except OSError:  # (a terminal that nobody has any more)
            break
        if not read:
            break
        if not told:
            end = min(end, time.monotonic() + 3)
        told += read
    command.kill()
    command.wait()
    os.close(reader)
    lines = [line.strip() for line in told.split(b"\n")[:-1]]
    return lines, len(lines) <= (time.monotonic() - began) / 2


def try_progress(cases, program):
    """Thousands of pages that nothing may drop: what takes long tells at a terminal how many calls
    were made, every two seconds, and nowhere else."""
    calls = [call for number in range(30_000) for call in (add(number, 20, length=4), get(number // 2, length=4))]
    path = program.file("slow.json", trace([calls], page_first=64, page_max=64, min_pages=64))
    log = program.file("slow.log", b"".join(b"0 %d add %d 1 %d 0\n0 %d get %d 20.0 none\n" % (2 * i, i, i > 0, 2 * i + 1, i + 1) for i in range(30_000)))
    for words in (("replay", path), ("run", path), ("check", path, log)):
        told, is_seldom = lines_told(program, words, True)
        cases.expect(f"{words[0]} tells at a terminal how far it is", told != [] and all(re.fullmatch(rb"[1-9][0-9]* calls made", line) for line in told), True)
        # (one of 64 calls looks at the clock)
        cases.expect(f"{words[0]} counts right", [line for line in told if int(re.match(rb"[0-9]*", line)[0] or 1) % 64], [])
        cases.expect(f"{words[0]} tells it every two seconds", is_seldom, True)
        cases.expect(f"{words[0]} tells a pipe nothing", lines_told(program, words, False), ([], True))


def try_installed(cases, program):
    """The program as it is installed: with the words that it has not, and where it lies moved."""
    prefix, first = f"{program.folder}/a prefix", f"{program.folder}/first"
    built = b"tscache 0.2.1\ncommit: 0123\nkit: a kit\nproved: yes\n"
    for name, content in {
        "bin/tscache": text_of("packaging/tscache"),
        "libexec/tscache/words.sh": text_of("packaging/words.sh"),
        "libexec/tscache/tscache": read(program.path),
        "libexec/tscache/built": built,
    }.items():
        write(f"{first}/{name}", content, 0o755)
    os.rename(first, prefix)
    installed = Program(f"{prefix}/bin/tscache", program.folder)
    for word in ("help", "--help", "-h"):
        status, told, fault = installed(word)
        head = b"tscache 0.2.1: the timestamp cache of CockroachDB, on recorded traces"
        cases.expect(f"installed, {word}", (status, told.split(b"\n")[0], fault), (0, head, b""))
    for word in ("version", "--version", "-V"):
        cases.expect(f"installed, {word}", installed(word), (0, built, b""))
    for name in ("replay", "run", "check"):
        status, told, fault = installed(name, "--help")
        cases.expect(f"installed, {name} --help", (status, told.split(b"\n")[0].split(b" ")[:3], fault), (0, [b"usage:", b"tscache", name.encode()], b""))
    usage = b"usage: tscache replay FILE, run FILE or check FILE LOG\n"
    for words in ([], ["replay"], ["replay", "a", "b"], ["replays", "a"], ["replay", "-x"], ["prove"], ["--", "--help"], ["help", "prove"]):
        cases.expect(f"installed, the words {words}", installed(*words), (2, b"", usage))
    told = b"tscache: cannot read %s: %s\nread failed\n"
    cases.expect("installed, a missing file", installed("replay", "nope.json"), (4, b"", told % (b"nope.json", b"No such file or directory")))
    cases.expect("installed, a folder", installed("replay", "."), (4, b"", told % (b".", b"Is a directory")))
    cases.expect("installed, a missing file --help", installed("run", "--", "--help"), (4, b"", told % (b"--help", b"No such file or directory")))
    trace_file, log_file, text, log = example("two_readers")
    program.file("--help", text)
    for command in ("replay", "run"):
        cases.expect(f"installed, {command}", installed(command, trace_file), (0, log, b""))
        cases.expect(f"installed, {command} of a file --help", installed(command, "--", "--help", folder=program.folder), (0, log, b""))
        cases.expect(f"installed, {command} of standard input", installed(command, "/dev/stdin", given=text), (0, log, b""))
    cases.expect("installed, check", installed("check", trace_file, log_file), (0, b"right\n", b""))
    page = f"{prefix}/share/doc/tscache/docs/FORMATS.md"
    told = f'trace refused: fault 1\ntscache: {page}, "Why a trace is refused", says what each fault means\n'
    cases.expect("installed, a refused trace", installed("replay", program.file("refused.json", b"[")), (1, b"", told.encode()))


def arguments(parser):
    words_of(parser)


def run(cases, given):
    with temporary() as work:
        program = Program(Builds(given, work).program(), work)
        for part in (
            try_examples, try_pictures, try_shown_page, try_grammars, try_names, try_installed, try_pipes, try_hostile,
            try_keys, try_batches, try_rotations, try_dropped_pages, try_lookups, try_largest, try_progress,
        ):
            part(cases, program)
