"""Measures the program's commands: wall time and peak memory, on traces that it makes.

It prints a line for each replay: the trace's name, bytes, calls, seconds, and KiB at the most. Of the
largest traces it also checks the log, five times in turn with five replays, and prints the least that
each took; so it does with traces that are refused for their last call, with reading alone, and at
the end with runs of one, two and four lists beside their replays.
"""
import os
import subprocess
import time

from parts.builds import Builds, words_of
from parts.frame import Fault, read, say, temporary

MOST_CALLS, MOST_BYTES, FOREVER, TURNS = 65536, 16_777_216, 2**63 - 1, 5


def trace(size, retention, lists, first=None, min_pages=2, low=5):
    head = f'{{"page_first":{first or size},"page_max":{size},"min_pages":{min_pages},"retention":{retention},"low_water":[{low},0]'
    return f'{head},"threads":[[' + "],\n[".join(",\n".join(calls) for calls in lists) + "]]}\n"


def add(span, time, now):
    return f'{{"op":"add","span":{{{span}}},"time":[{time}],"now":[{now},0]}}'


def get(span):
    return f'{{"op":"get","span":{{{span}}}}}'


def calls_on(keys, pad="", count=MOST_CALLS, base=0):
    """An Add and a lookup by turns, of so many different keys, each with this behind it."""
    for i in range(count):
        span = f'"start":"{base + i * 40503 % keys:08x}{pad}"'
        yield get(span) if i % 2 else add(span, f"20,{i}", 20)


def of_keys(calls, length, keys):
    """As many calls on keys of so many bytes, on one page."""
    pad = "ab" * (length - 4)
    return trace(65536 * (length + 32), 10, [calls_on(keys, pad, calls)])


def of_ranges(nodes, retention, keys, width):
    """Calls on ranges of `width` of so many keys, on pages with room for `nodes` of them.

    The times and the moments rise by one with each Add.
    """
    def calls():
        for i in range(MOST_CALLS):
            at = i * 40503 % keys
            span = f'"start":"{at:08x}","end":"{at + width:08x}"'
            yield get(span) if i % 2 else add(span, f"{i + 20},0", i + 20)

    return trace(nodes * 36, retention, [calls()])


def of_rotations(calls, marks, retention):
    """Calls that each add so many marks of two keys by turns, on pages with room for one key."""
    spans = ['"start":""', '"start":"00"']

    def call(i):
        if marks == 1:
            return add(spans[1 - i % 2], f"{i + 9},0", i + 9)
        each = ",".join(f'{{"span":{{{spans[1 - j % 2]}}},"time":[{i + 9},0]}}' for j in range(marks))
        return f'{{"op":"batch","marks":[{each}],"now":[{i + 9},0]}}'

    return trace(64, retention, [map(call, range(calls))], min_pages=10, low=0)


class Program:
    """The program, and the traces that it is measured on."""

    def __init__(self, path, work):
        self.path, self.work = path, work

    def file(self, name, text):
        with open(f"{self.work}/{name}.json", "w", encoding="utf-8") as file:
            file.write(text)

    def timed(self, status, out, *words):
        """Returns the seconds, KiB and processor seconds of a call, which has to end with that
        status."""
        with open(f"{self.work}/{out}", "wb") as file, open(f"{self.work}/told", "w+b") as told:
            began = time.monotonic()
            started = subprocess.Popen([self.path, *words], stdin=subprocess.DEVNULL, stdout=file, stderr=told)
            ended, usage = os.wait4(started.pid, 0)[1:]
            seconds = time.monotonic() - began
            started.returncode = os.waitstatus_to_exitcode(ended)
        if started.returncode != status:
            raise Fault(f"{' '.join(words)}: status {started.returncode}: {read(f'{self.work}/told').decode()}")
        return seconds, usage.ru_maxrss, usage.ru_utime + usage.ru_stime

    def measure(self, name, status=0):
        """Replays a trace, which has to end with that status."""
        path = f"{self.work}/{name}.json"
        text = read(path)
        calls = text.count(b'{"op"')
        seconds, kib, _ = self.timed(status, "log", "replay", path)
        print(f"{name:24} {len(text):9} bytes {calls:7} calls  {seconds:.2f} s, {kib} KiB", flush=True)

    def refused(self, name):
        """The same trace with a wrong last call, and with a configuration that is refused."""
        text = read(f"{self.work}/{name}.json").decode()
        self.file(f"{name}_fault", text[: text.rindex('{"op"')] + '{"op":"none"}]]}\n')
        head, _, rest = text.partition('"page_first":')
        self.file(f"{name}_config", f'{head}"page_first":1,{rest.partition(",")[2]}')
        self.measure(f"{name}_fault", 1)
        self.measure(f"{name}_config", 1)

    def beside(self, name, command):
        """Replays a trace, and checks its log, runs it, is refused it, or reads it alone, by turns.
        """
        path, log = f"{self.work}/{name}.json", f"{self.work}/log"
        other = {
            "check": (0, "said", "check", path, log),
            "fault": (1, "said", "replay", f"{self.work}/{name}_fault.json"),
            # the verdict on an empty log is that its first line is wrong, and no call is made for
            # it
            "read": (3, "said", "check", path, "/dev/null"),
            "run": (0, "said", "run", path),
        }[command]
        turns = []
        for _ in range(TURNS):
            replay = self.timed(0, "log", "replay", path)
            turns.append((self.timed(*other), replay))
        its, replays = ([min(it[which][part] for it in turns) for part in (0, 2)] for which in (0, 1))
        print(f"{name:16} {command:6} {its[0]:.2f} s, {its[1]:.2f} s of processors; replay {replays[0]:.2f} s, {replays[1]:.2f} s", flush=True)


def arguments(parser):
    words_of(parser)


def main(given):
    with temporary() as work:
        it = Program(Builds(given, work).program(), work)
        say("measuring, which takes some minutes")
        for name, text in {
            **{f"calls_{calls}": of_keys(calls, 8, 65536) for calls in (1250, 2500, 5000, 10000, 20000)},
            **{f"long_keys_{calls}": of_keys(calls, 2000, 65536) for calls in (500, 1000, 2000, 4000)},
            # the longest input there is, with spaces at its end
            "longest": of_keys(4096, 2000, 65536).ljust(MOST_BYTES),
        }.items():
            it.file(name, text)
            it.measure(name)
        # The most calls, over 65,536 keys, and over fewer; and what refusing them takes.
        for keys in (65536, 4096):
            it.file(f"points_{keys}", of_keys(MOST_CALLS, 4, keys))
            it.measure(f"points_{keys}")
            it.refused(f"points_{keys}")
        # Two new end keys an Add, on pages for 64 of them: thousands of rotations, each of which
        # drops
        # a page, or none does; and ranges that span a thousand nodes.
        it.file("pages_evicted", of_ranges(64, 10, 4294901760, 1))
        it.file("pages_kept", of_ranges(64, FOREVER, 4294901760, 1))
        it.file("wide_ranges", of_ranges(65536, 10, 4096, 1000))
        for name in ("pages_evicted", "pages_kept", "wide_ranges"):
            it.measure(name)
        # Adds and batches of which each mark brings a page: all of 65,536 pages stay, or ten.
        for name, calls, marks in (("rotations", MOST_CALLS, 1), ("batches", MOST_CALLS // 2, 2)):
            it.file(f"{name}_kept", of_rotations(calls, marks, FOREVER))
            it.file(f"{name}_evicted", of_rotations(calls, marks, 8))
        # As many calls as that length can have, which are more than a trace may have.
        many = ",".join(['{"op":"low"}'] * 1_290_001)
        it.file("too_many_calls", trace(66, 0, [[many]], min_pages=1, low=0))
        it.measure("too_many_calls", 1)
        for keys in (65536, 4096):
            it.beside(f"points_{keys}", "fault")
        for name in ("calls_20000", "long_keys_4000", "longest", "points_65536", "points_4096", "pages_evicted", "pages_kept", "wide_ranges"):
            it.beside(name, "check")
        for name in ("rotations_kept", "rotations_evicted", "batches_kept", "batches_evicted"):
            it.beside(name, "run")
        it.beside("wide_ranges", "read")
        for lists in (1, 2, 4):
            calls = [calls_on(16384, "", 16384, base * 65536) for base in range(lists)]
            it.file(f"lists_{lists}", trace(65536 * 36, 10, calls))
            it.beside(f"lists_{lists}", "run")
        say("all is measured")
