"""Proves one crate from nothing, and lists the modules, the borrow modules and the goals that cost most.

A module is a function's proof or its answers, a file of lemmas, or what the prover makes of a body's
borrows (`Lts`). What the crate's earlier checks kept is removed first, since a module that is kept
takes no time; the crates below are not proved again. The seconds are by the clock between two files
of out/incremental, so the machine should be at rest. The steps are counted by the prover, and are
the same whatever else runs: three million take about a second.
"""
import os
import re
import shutil
import subprocess
import sys

from parts.frame import ROOT, WRONG_WORDS, Fault, needs_rt, read, say
from parts.repository import crates

SLOW, LARGE, MANY, MOST = 3.0, 3_000_000, 1_000_000, 25
# What the prover keeps of a declaration has its name, and then its steps by three kinds of work.
RECORD = re.compile(rb'"name":"([^"]*)"(?:(?!"name":).)*?"steps":\[(\d+),(\d+),(\d+)\]', re.DOTALL)


def kept_files(folder):
    """Returns when each file below a folder was written last, its size and its path, the oldest
    first."""
    paths = (os.path.join(at, name) for at, _, names in os.walk(folder) for name in names)
    return sorted((told.st_mtime, told.st_size, path) for path in paths for told in [os.stat(path)])


def subject(crate, path):
    name = os.path.basename(path)
    return name.removeprefix(f"Rattle-{crate}-proofs.").removesuffix(".oantt").removesuffix(".decls")


def steps_of(path):
    """Returns of each declaration that a file keeps how many steps it took, and its name."""
    return [(sum(map(int, steps)), what.decode()) for what, *steps in RECORD.findall(read(path))]


def print_most(title, rows, least, unit):
    """Prints the largest of some numbers, each with its subject, as far as they are so large."""
    print(f"{title}, of {sum(it for it, _ in rows) / unit:.0f}")
    for size, what in sorted(rows, reverse=True)[:MOST]:
        if size >= least:
            print(f"{size / unit:7.1f}  {what}")


def arguments(parser):
    parser.add_argument("crate", help="the crate that is proved")
    parser.add_argument("--test", action="store_true", help="prove its tests too")


def main(given):
    crate, folder = given.crate, f"{ROOT}/crates/{given.crate}"
    needs_rt()
    if crate not in crates():
        raise Fault(f"there is no crate {crate}", WRONG_WORDS)
    kept = f"{folder}/out/incremental"
    shutil.rmtree(kept, ignore_errors=True)
    say(f"proving {crate} from nothing")
    words = ["rt", "check", "--jobs", "1", *(["--test"] if given.test else [])]
    ran = subprocess.run(words, cwd=folder, stdin=subprocess.DEVNULL, stdout=sys.stderr)
    say(f"{crate} was {'not ' if ran.returncode else ''}proved")
    files = kept_files(kept)
    seconds = [(after - before, subject(crate, path)) for (before, _, _), (after, _, path) in zip(files, files[1:])]
    print_most(f"{crate}: seconds of the slowest modules", seconds, SLOW, 1)
    borrows = [(size, subject(crate, path)) for _, size, path in files if ".Lts" in path]
    print_most(f"{crate}: megabytes of the largest borrow modules", borrows, LARGE, 1e6)
    goals = [
        (steps, f"{subject(crate, path)}: {what}")
        for _, _, path in files
        if path.endswith(".decls.oantt")
        for steps, what in steps_of(path)
    ]
    print_most(f"{crate}: millions of steps of the dearest declarations", goals, MANY, 1e6)
    return ran.returncode
