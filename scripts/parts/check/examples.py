"""Checks that what stands in documents is what the sources have.

Each block of Rust in README.md and docs/EMBEDDING.md has to stand, line for line but for its
indentation, in one of the sources that it is taken from. A program that reads `bindings/rows.txt`
has a copy, since it reads its standard input alone. `scripts/test program` tries `examples/`. Each
public call of the crates for a store's author has an example in its comment, and so has each of the
bindings for Rust. Each of the package for Go has a function `Example..` in a test.
"""
import os
import re

from parts.frame import text_of
from parts.repository import EXAMPLE_CRATES, blocks, doc_examples, files, public_calls, text_or_none

ROWS, ROWS_COPY = "bindings/rows.txt", "crates/test_rows/stdin"
DOCUMENTS = ["README.md", "docs/EMBEDDING.md"]
SHOWN = [
    "crates/example_hand_over/src/lease.rt",
    "crates/timestamp_cache/src/writes.rt",
    "bindings/rust/examples/leased_store.rs",
]


def unindented(text):
    """Returns the lines of a text without what they begin and end with, each behind a line feed."""
    return "".join("\n" + line.strip() for line in text.splitlines()) + "\n"


def rust_calls():
    """Returns the public functions of the crate for Rust, each with whether its comment has a block."""
    found = []
    for path in files("bindings/rust/src/*.rs"):
        text = text_of(path).partition("#[cfg(test)]\nmod tests")[0] if "/ffi." not in path else ""
        for comment, name in re.findall(r"((?:^ *///.*\n)*)(?:^ *#\[.*\n)* *pub (?:const )?fn (\w+)", text, re.M):
            found.append((f"{name} of {path}", "```" in comment))
    return found


def go_calls():
    """Returns the exported functions and methods of the package for Go, as examples name them."""
    sources = (it for it in files("bindings/go/*.go") if not it.endswith("_test.go"))
    calls = re.findall(r"^func (?:\(\w+ \*?(\w+)\) )?([A-Z]\w*)\(", "".join(map(text_of, sources)), re.M)
    # (what is not exported has none, and `Error` of an error is called by the language)
    return [f"{kind}_{name}".lstrip("_") for kind, name in calls if not kind[:1].islower() and name != "Error"]


def run(cases, _):
    sources = [unindented(text_of(path)) for path in SHOWN]
    for document in DOCUMENTS:
        for block in cases.looked_at(blocks(text_of(document), "rust"), f"blocks of Rust in {document}"):
            lines = unindented(block)
            where = ", ".join(map(os.path.basename, SHOWN))
            cases.expect(f"a block of {document} stands in none of {where}:{lines}", any(lines in it for it in sources))
    cases.expect(f"{ROWS_COPY} is not as {ROWS}", text_or_none(ROWS) == text_or_none(ROWS_COPY))
    for crate in EXAMPLE_CRATES:
        shown = {(it.path, it.name) for it in doc_examples(crate)}
        for call in cases.looked_at(public_calls(crate), f"public calls of {crate}"):
            cases.expect(f"{call[1]} of {call[0]} has no example in its comment", call in shown)
    for call, is_shown in cases.looked_at(rust_calls(), "public calls of the crate for Rust"):
        cases.expect(f"{call} has no example in its comment", is_shown)
    tests = "".join(map(text_of, files("bindings/go/*_test.go")))
    for call in cases.looked_at(go_calls(), "public calls of the package for Go"):
        cases.expect(f"{call} of bindings/go has no example", f"\nfunc Example{call}(" in tests)
