"""Refuses handles on the standby copy, in a copy of the repository that is changed so.

Of the Adds whose place is 1, 4, 7, .. each finds at its first try that no handle can be made for the
second seat. In truth that comes only where there are 2^63 - 1 handles, so no test of the code as it
is meets it.

In the copy the tests by `rt try --test` have to show that an Add is refused as want of memory then,
that all is as before, and that it is made when tried again, with the answers of a plain cache at both
seats: the test of refused Adds passes, and one whose Adds are not tried again ends with that fault.
It takes a minute, and proves nothing.
"""
import re
import shutil

from parts.frame import ROOT, Fault, needs_rt, outcome, say, temporary, text_of, write
from parts.repository import files, named

# What is changed: each of these lines, in the one file of the crates that has all of a group.
CHANGES = [
    {
        "fn handle_on<C, O>(active: &Arc<C>, length: u64) -> (bool, Slot<C, O>)": (
            "fn handle_on<C: Drop, O>(active: &Arc<C>, length: u64, refused: bool) -> (bool, Slot<C, O>)"
        ),
        "        Ok(copy) => (true, Slot::Handle(ReadHandle { copy, length })),": (
            "        Ok(copy) => if refused { (false, Slot::Empty) }"
            " else { (true, Slot::Handle(ReadHandle { copy, length })) },"
        ),
        "    length: u64,": "    length: u64,\n    refused: bool,",
        "        let (made, handle) = handle_on(active, length);": (
            "        let (made, handle) = handle_on(active, length, refused && seat == 1);"
        ),
    },
    {
        "    let Next {": (
            "    let refused = state.copies.standby.is_some() && state.length % 3 == 1;\n"
            "    let Next {"
        ),
        "        length,": "        length,\n        refused,",
    },
]


def change(room):
    """Changes the sources in a copy."""
    texts = {path: text_of(path).split("\n") for path in files("crates/*/src/**/*.rt")}
    for group in CHANGES:
        found = [path for path, lines in texts.items() if group.keys() <= set(lines)]
        if len(found) != 1:
            raise Fault(f"{len(found)} sources have the line {next(iter(group)).strip()} and what goes with it", 1)
        changed = "\n".join(group.get(line, line) for line in texts[found[0]])
        write(f"{room}/{found[0]}", changed)


def run(cases, _):
    needs_rt()
    say("trying tests on a changed copy, which takes a minute")
    rows = [row.split(" ", 2) for row in named("handle")]
    with temporary() as room:
        for name in ("HANDLES", "crates.txt"):
            shutil.copy(f"{ROOT}/{name}", room)
        shutil.copytree(f"{ROOT}/crates", f"{room}/crates", ignore=shutil.ignore_patterns("out"))
        change(room)
        for crate in sorted({row[0] for row in rows}):
            _, told = outcome("rt", "try", "--test", cwd=f"{room}/crates/{crate}")
            for _, test, line in (row for row in rows if row[0] == crate):
                shown = re.search(rf"^test {re.escape(test)} \.\.\.(.*?)(?=^test |\Z)", told, re.M | re.S)
                holds = shown and re.search(line, shown[0], re.M)
                cases.expect(f"handles refused: {test} shows {line}", bool(holds), told=told)
