"""Counts the instructions that fixed calls take, where `valgrind` is there, which counts.

The calls are 512 lookups and 512 Adds each, of keys, of ranges of 16 keys and of 1,000, on one page
of 7,168 keys; lookups of keys behind 16 or 32 bytes that all keys have; and 512 calls of a trace
that are read. A call may take as many on an average as `scripts/tests.txt` says: what was measured
and some hundredths more, so that a search that looks at more keys, a lookup that looks into more
parts, or a reader that goes over a text again, is found. Each figure is what a test takes more than
the one that makes no call with such keys.

The tests are built without a proof, and the bounds are of such a build: a proved one takes a tenth
less.
"""
import re
import shutil

from parts.builds import Builds, words_of
from parts.frame import outcome, temporary
from parts.repository import named

CALLS = 512
COLLECTED = re.compile(r"^==\d+== Collected : (\d+)$", re.M)


def arguments(parser):
    words_of(parser)


def steps(program, test, work):
    """Returns how many instructions a test takes, or none where that is not told.

    Where its stack lies changes some of them, so words and environment are as long for each test.
    """
    words = [shutil.which("valgrind"), "--tool=callgrind", "--callgrind-out-file=/dev/null", program, test]
    status, told = outcome(*words, cwd=work, env={"PAD": " " * (80 - len(test))})
    found = COLLECTED.search(told)
    if status or not found:
        print(told)
    return int(found[1]) if found and not status else None


def run(cases, given):
    if not cases.has("valgrind", "counts of steps"):
        return
    given.unproved = True
    with temporary() as work:
        builds, nothing, last = Builds(given, work), {}, None
        for row in named("steps"):
            crate, test, without, most = row.split()
            if crate != last:
                last = crate
                shutil.copy(builds.tests(crate), f"{work}/tests")
            if without not in nothing:
                nothing[without] = steps("./tests", without, work)
            taken = steps("./tests", test, work)
            if taken is None or nothing[without] is None:
                cases.expect(f"{test} is counted", False)
                continue
            each = (taken - nothing[without]) // CALLS
            cases.expect(f"{test}: {each} instructions a call, of {most}", 0 < each <= int(most))
