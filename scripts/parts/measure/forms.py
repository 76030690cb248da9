"""Measures each form of the cache under the calls of several threads, in one run.

It takes some three minutes, in which nothing else should run: threads that wait for one whose
processor was taken measure the other work. (Precedence by `chrt` is no help, since it stops such
threads too.) What `bench_cache forms` prints is put into docs/pictures/forms.txt, below the day and
the load of the machine. The picture docs/forms.svg and the table between the marks of
docs/PERFORMANCE.md are made of that; --again makes them of the file as it is.
"""
import datetime
import os
import re

from parts.builds import Builds, words_of
from parts.draw.forms import FORMS, conditions, draw_forms, rates_of
from parts.frame import ROOT, say, temporary, text_of, told_by, write

LINES, PICTURE, PAGE = "docs/pictures/forms.txt", "docs/forms.svg", "docs/PERFORMANCE.md"
BEGIN, END = "<!-- forms: begin -->\n", "<!-- forms: end -->"
SIZES = ["1024", "65536"]
ADDS = re.compile(r"(\d+) nodes, ([^,]+), (\d+) threads, \d+ lookups of 100: of \d+ Adds half took (\d+) ns, 99 of 100 (\d+) ns, the longest (\d+) ns")
COLUMNS = ["Form", "Keys", "Lookups of 100: 100", "95", "50", "5", "An Add of 4 threads: half; 99 %; longest", "of 8"]
SHARES, THREADS = (100, 95, 50, 5), (1, 2, 4)


def short(nanoseconds):
    """A time to two digits, with its unit."""
    for size, unit in ((1e6, "ms"), (1e3, "us")):
        if nanoseconds >= size:
            return f"{nanoseconds / size:.2g} {unit}" if nanoseconds < 100 * size else f"{nanoseconds / size:.0f} {unit}"
    return f"{nanoseconds} ns"


def table(told):
    """Yields the lines of the table: millions of calls a second, and what Adds take."""
    rates = rates_of(told)
    adds = {(int(nodes), name, int(threads)): times for nodes, name, threads, *times in ADDS.findall(told)}
    day = re.search(r"\d{4}-\d\d-\d\d", told)[0]
    yield f"Measured on {day}, with {conditions(told)}:\n"
    yield f"| {' | '.join(COLUMNS)} |"
    yield "|---" * len(COLUMNS) + "|"
    for nodes in sorted({it[0] for it in rates}):
        for name in FORMS:
            cells = ["; ".join(f"{rates[nodes, name, it, share] / 1e6:.2g}" for it in THREADS) for share in SHARES]
            cells += ["; ".join(short(int(it)) for it in adds[nodes, name, threads]) for threads in (4, 8)]
            yield f"| {name} | {nodes:,} | {' | '.join(cells)} |"


def made_of(told):
    """Returns the picture and the page that are made of lines."""
    before, begin, rest = text_of(PAGE).partition(BEGIN)
    _, end, after = rest.partition(END)
    lines = "".join(f"{it}\n" for it in table(told))
    return {PICTURE: f"{draw_forms(told)}\n", PAGE: f"{before}{begin}{lines}{end}{after}"}


def arguments(parser):
    words_of(parser)
    parser.add_argument("--again", action="store_true", help="draw what was measured before")


def main(given):
    if not given.again:
        load = os.getloadavg()[0]
        with temporary() as work:
            bench = Builds(given, work).program("bench_cache", "forms", "64")
            say(f"measuring, with {load:.1f} other threads at work")
            told = told_by(bench, "forms", *SIZES)
        head = f"# What `bench forms {' '.join(SIZES)}` printed on {datetime.date.today()}, on {os.cpu_count()} processors"
        how = "proved" if not given.unproved else "built without proofs"
        write(f"{ROOT}/{LINES}", f"{head}\n# with {load:.1f} other threads at work, {how}.\n{told}\n")
    for path, text in made_of(text_of(LINES)).items():
        write(f"{ROOT}/{path}", text)
        print(path)
