"""Checks that `crates.txt` names what there is and what is needed, as do the lists that go by crates.

- Each crate names each library that `crates.txt` says it stands on: where a source says `NAME::`, or
  a source or a proof `Rattle.NAME.`. Each crate of `crates/` has a line.
- The table of the gate's time in docs/PROOFS.md has a row for each crate and no other, in the order
  of `crates.txt`. `scripts/measure gate` writes it, with the day.
- Each test that `scripts/tests.txt` names is there.
"""
import os
import re

from parts.frame import ROOT, text_of
from parts.measure.gate import COLUMNS, measured
from parts.repository import crates, files, named, rows_of, text_or_none

# A test as `path::to::name`, with what stands behind it in a row.
TEST = re.compile(r"((?:\w+::)+)(\w+)[+=#/\d]*")


def sources_of(crate):
    """Returns all sources, specifications and proofs of a crate in one."""
    patterns = ("src/**/*.rt", "specs/**/*.antt", "proofs/**/*.antt")
    return "\n".join(text_of(it) for pattern in patterns for it in files(f"crates/{crate}/{pattern}"))


def tests():
    """Yields each test that a script calls by its name: the crate, the file and the function."""
    for row in named("growth") + named("test"):
        words = row.split()
        crate = next((after for word, after in zip(words, words[1:]) if word == "tests"), words[0])
        for word in words:
            found = TEST.fullmatch(word)
            if found:
                yield crate, found[1].strip(":").replace("::", "/"), found[2]


def run(cases, _):
    known = crates()
    for crate, libraries in cases.looked_at(known, "crates").items():
        text = sources_of(crate)
        for library in libraries:
            is_named = re.search(rf"\b{library}::|\bRattle\.{library}\.", text)
            cases.expect(f"{crate} never names {library}", bool(is_named))
        cases.expect(f"there is no crates/{crate}", os.path.isdir(f"{ROOT}/crates/{crate}/src"))
    for crate in sorted(os.listdir(f"{ROOT}/crates")):
        cases.expect(f"crates.txt has no line of {crate}", crate in known)

    text = text_or_none("docs/PROOFS.md") or ""
    rows = rows_of(text, COLUMNS)
    in_table = cases.looked_at([it[0].strip("`") for it in rows if it[0] != "all"], "crates in the table of the gate")
    for crate in known:
        cases.expect(f"docs/PROOFS.md has no time of {crate}: call scripts/measure gate", crate in in_table)
    for crate in in_table:
        cases.expect(f"docs/PROOFS.md has a time of {crate}, which is no crate", crate in known)
    cases.expect("docs/PROOFS.md has the times in another order than crates.txt", in_table, list(known))
    cases.expect("docs/PROOFS.md doesn't say when the gate was measured", measured(text) is not None)

    for crate, file, function in cases.looked_at(list(tests()), "tests that scripts name"):
        source = text_or_none(f"crates/{crate}/src/{file}.rt") or ""
        is_there = re.search(rf"\bfn {function}\b", source)
        cases.expect(f"scripts/tests.txt names {file}::{function}, which {crate} has not", bool(is_there))
