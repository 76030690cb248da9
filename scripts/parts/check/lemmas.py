"""Checks that a lemma of the libraries is stated once, in the crate of its words.

Two lemmas are one where their statements are the same text, once each word is read by the imports of
its file, whatever the lemmas are called. Short statements are left out, as are the crates of tests,
examples and measures, which stand on the libraries alone.
"""
import re

from parts.frame import text_of
from parts.repository import crates, files

# How long a statement is that counts, with its white space folded.
LEAST = 60
OTHERS = ("test_", "example_", "bench_")
COMMENT = re.compile(r"(?m)^\s*--.*$")
IMPORT = re.compile(r"(?m)^(?:pub )?use ((?:[^\n]|\n[ \t}]+)*)")
STATEMENT = re.compile(r"(?m)^(?:(?:pub|abbrev|unfoldable|opaque)\s+)*([^\s:(){}]+) :((?:[^\n]|\n[ \t]+)*)")
DEFINED = re.compile(r"(?m)^(?:(?:pub|abbrev|unfoldable|opaque|data|record)\s+)*([^\s:(){}]+) :")
WORD = re.compile(r"[^\s(){},.∷]+(?:\.[^\s(){},.]+)*")


def imports_of(text):
    """Returns the whole name of each word that a file imports."""
    found = {}
    for given in IMPORT.findall(text):
        path, _, names = " ".join(given.split()).partition("{")
        if not names:
            path, _, names = path.rpartition(".")
            path += "."
        for it in filter(None, (it.strip() for it in names.rstrip("} ").split(","))):
            name, _, here = it.partition(" as ")
            found[here or name] = path + name
    return found


def statements_of(path):
    """Yields each lemma that a file states: its name, and what it says in whole names."""
    text = COMMENT.sub("", text_of(path))
    known = imports_of(text)
    own = {name: f"{path}:{name}" for name in DEFINED.findall(text) if name not in known}

    def whole(word):
        head, dot, rest = word[0].partition(".")
        return known.get(word[0]) or {**own, **known}.get(head, head) + dot + rest

    for name, said in STATEMENT.findall(text):
        folded = " ".join(said.split())
        if len(folded) >= LEAST and ("→" in folded or "≡" in folded):
            yield name, WORD.sub(whole, folded)


def run(cases, _):
    stated = {}
    for crate in crates():
        if not crate.startswith(OTHERS):
            for path in files(f"crates/{crate}/proofs/**/*.antt"):
                for name, said in statements_of(path):
                    stated.setdefault(said, []).append((path, name))
    for places in cases.looked_at(stated, "statements of lemmas").values():
        where = [f"{path} {name}" for path, name in places]
        cases.expect(f"a lemma is stated in {', '.join(where)}", len(places), 1)
