"""Checks the layout of the sources, the definitions and the proofs of every crate.

- No line of a clause, of documentation or of a comment is wider than 100 columns. Of the lines of
  sources and definitions at most 2 in 100 are, and of those of proofs at most 5.
- Each proof file begins with a comment that says what it proves.
- No function has more clauses, or more parameters, than the numbers below. An export to C takes
  what its C prototype says.
"""
import re

from parts.frame import text_of
from parts.repository import crates, files

WIDTH = 100
MOST_CLAUSES, MOST_PARAMETERS = 6, 7
WIDE_SOURCES, WIDE_PROOFS = 0.02, 0.05
CLAUSE = re.compile(r"\s*(ensures|requires)\b")
COMMENT = re.compile(r"\s*(//|-- )")
FUNCTION = re.compile(
    r"^[ \t]*(?:pub(?:\([a-z]+\))? )?(?:const |unsafe )*(extern \"C\" )?fn (\w+)", re.M
)
OPENING, CLOSING = "([{<", ")]}>"


class Crate:
    """The lines of a crate's sources, definitions and proofs, each with its file and its number."""

    def __init__(self, name):
        self.name = name
        self.sources, self.definitions, self.proofs = (
            {path: text_of(path) for path in files(f"crates/{name}/{pattern}")}
            for pattern in ("src/**/*.rt", "specs/**/*.antt", "proofs/**/*.antt")
        )


def lines_of(texts):
    for path, text in texts.items():
        for number, line in enumerate(text.split("\n"), 1):
            yield path, number, line


def wide_clauses(crate):
    """Returns where a clause or a comment is too wide."""
    found, depth = [], 0
    for path, number, line in lines_of(crate.sources):
        inside = depth > 0 or CLAUSE.match(line)
        if inside:
            depth += line.count("{") - line.count("}")
        if len(line) > WIDTH and (inside or COMMENT.match(line)):
            found.append(f"{path}:{number}")
    for path, number, line in lines_of(crate.definitions):
        if len(line) > WIDTH and COMMENT.match(line):
            found.append(f"{path}:{number}")
    return found


def too_many_wide(texts, most):
    """Returns how many lines are too wide, where these are too many."""
    lines = [line for text in texts.values() for line in text.splitlines()]
    wide = sum(len(line) > WIDTH for line in lines)
    return [f"{wide} of {len(lines)} lines"] if wide > most * len(lines) else []


def without_head(crate):
    """Returns the proof files that don't begin with a comment, but for the list of modules."""
    texts = crate.proofs.items()
    return [it for it, text in texts if text[:3] != "-- " and not it.endswith("/proofs/Lib.antt")]


def parameters(text):
    """Returns how many parameters a function has, from what follows its name on."""
    depth, commas, is_last_empty, is_list = 0, 0, True, False
    for at, letter in enumerate(text):
        if letter in CLOSING and text[at - 1 : at + 1] not in ("->", "=>"):
            depth -= 1
            if is_list and depth == 0:
                return commas + (not is_last_empty)
        elif letter in OPENING:
            is_list = is_list or (depth == 0 and letter == "(")
            depth += 1
            is_last_empty = is_last_empty and depth == 1
        elif is_list and depth == 1 and letter == ",":
            commas, is_last_empty = commas + 1, True
        elif not letter.isspace():
            is_last_empty = is_last_empty and not is_list
    return 0


def functions(crate):
    """Returns where each function stands, whether C calls it, and its parameters and clauses."""
    for path, text in crate.sources.items():
        found = list(FUNCTION.finditer(text))
        ends = [function.start() for function in found[1:]] + [len(text)]
        for function, end in zip(found, ends):
            rest = text[function.end() : end]
            line = text.count("\n", 0, function.end()) + 1
            clauses = sum(CLAUSE.match(line) is not None for line in rest.split("\n"))
            yield f"{path}:{line} {function[2]}", bool(function[1]), parameters(rest), clauses


def run(cases, _):
    looked_at = []
    for crate in cases.looked_at([Crate(it) for it in crates()], "crates"):
        all_functions = list(functions(crate))
        looked_at += all_functions
        sources = {} if crate.name.startswith("test_") else {**crate.sources, **crate.definitions}
        rules = {
            "clauses and comments that are too wide": wide_clauses(crate),
            "too many wide lines": too_many_wide(sources, WIDE_SOURCES),
            "too many wide lines of proofs": too_many_wide(crate.proofs, WIDE_PROOFS),
            "proof files without a head": without_head(crate),
            "too many clauses": [it for it, _, _, clauses in all_functions if clauses > MOST_CLAUSES],
            "too many parameters": [
                it for it, is_export, count, _ in all_functions if count > MOST_PARAMETERS and not is_export
            ],
        }
        for rule, found in rules.items():
            cases.expect(f"{crate.name}: {rule}: {', '.join(found[:8])}", not found)
    cases.looked_at(looked_at, "functions")
