"""Checks that the claims, rules, promises and words of the documents name what is there.

A rule of MODEL.md begins with its id, as `- **Expiry.** ..`, and has one row in a table with the
columns Rule, Definition, Law, Code, Edit and Test. In a cell a place in backticks is followed by
names, until the next place:

    Definition  `CRATE/File`   names in crates/CRATE/specs/File.antt
    Law         `CRATE`        functions in crates/CRATE/src/laws.rt or log_laws.rt
    Code        `CRATE/path`   functions, types and constants in crates/CRATE/src/path.rt
    Edit        `CRATE`        edits in crates/CRATE/must-fail
    Test        `CRATE/path`   functions in crates/CRATE/src/path.rt, or lemmas of
                               proofs/Path.antt; `scripts/NAME PART` or another file of the
                               repository, without names

A promise of PROOFS.md is a row with the columns Rule, Promise and Contract. A contract is a
function behind its crate, and its clauses stand in parentheses: `tsc_cache` `Cache::add`
(`stands`, `added`).

A fact that no contract says has a row with the columns What and Shown by, in the form of Test. A
word of `docs/GLOSSARY.md` lives in a file below `crates/`, with names behind it that stand there.

The reading list of PROOFS.md names files of definitions with their lines, as `CRATE/File` 26. A
count may be off by a tenth, or by five lines. README.md makes its claims in bullets, and each links
the rules that it rests on, as [Expiry](docs/MODEL.md#pages-caches-and-leases): the id of a rule, and
the heading above that. Its table of lines, and that of PROOFS.md, has the counts of
`scripts/check definitions`, with the same leeway.

Below a rule of MODEL.md stand an example and one line of names, which its row has too: the
definition to read, the law, and code. Each rule has one row and a promise, each name exists, and
each edit of the tree stands in exactly one rule.
"""
import os
import re

from parts.check.definitions import groups, lines_of
from parts.check.prose import wrong_commands
from parts.frame import ROOT
from parts.repository import anchors, edits_of, files, rows_of, text_or_none

COLUMNS = ["Rule", "Definition", "Law", "Code", "Edit", "Test"]
PROMISES = ["Rule", "Promise", "Contract"]
READING = ["What", "Files in order, with their lines", "What to look for"]
SHOWN = ["What", "Shown by"]
WORDS = ["Our word", "In the field, or in plain words", "Where it lives"]
COUNTS = ["Definitions that say what is meant", "Lines"]
FURTHER = ["What", "Files", "Lines"]
# How many of the groups of definitions the reading list has: those of a store in Rattle.
READ_GROUPS = 3
CLAIM = re.compile(r"^- \*\*.*?(?=^- |^$)", re.M | re.S)
RULE_LINK = re.compile(r"\[([^]]+)\]\(docs/MODEL\.md#([^)]+)\)")
ID = re.compile(r"^- \*\*([^*]+)\.\*\*", re.M)
CARD = re.compile(r"  - \*Example:\* .*?^  - \*Read\* (.*?); \*law\* (.*?); \*code\*\s(.*?)\.$", re.M | re.S)
TICKED = re.compile(r"`([^`]+)`")
CONTRACT = re.compile(r"`([^`]+)`(?: \(([^)]*)\))?")


def sources_of(crate):
    """Returns the texts of a crate's code."""
    return [text_or_none(it) for it in files(f"crates/{crate}/src/**/*.rt")]


def is_place(word):
    return "/" in word or os.path.isdir(os.path.join(ROOT, "crates", word))


def named_in(cell):
    """Returns each place of a cell with the names behind it."""
    found = []
    for word in TICKED.findall(cell):
        if is_place(word):
            found.append((word, []))
        elif found:
            found[-1][1].append(word)
        else:
            found.append(("", [word]))
    return found


def defines(text, name):
    return bool(re.search(rf"(?m)^\s*(?:(?:abbrev|record|data|unfoldable|pub) )*{re.escape(name)}(?=[\s:(]|$)", text or ""))


def has_code(text, name):
    return bool(re.search(rf"\b(?:fn|struct|enum|trait|type|const|static) {re.escape(name)}\b", text or ""))


def has_law(crate, name):
    return any(re.search(rf"\bpub fn {re.escape(name)}\b", text_or_none(f"crates/{crate}/src/{it}") or "") for it in ("laws.rt", "log_laws.rt"))


def parted(place):
    crate, _, path = place.partition("/")
    return crate, path


def in_file(place, name, column):
    """Returns whether the place that a cell of a column names has the name."""
    crate, path = parted(place)
    if column == "Definition":
        return defines(text_or_none(f"crates/{crate}/specs/{path}.antt"), name)
    if column == "Law":
        return has_law(crate, name)
    if column == "Code":
        return has_code(text_or_none(f"crates/{crate}/src/{path}.rt"), name)
    if column == "Edit":
        return text_or_none(f"crates/{crate}/must-fail/{name}.edit") is not None
    if path[:1].isupper():
        return defines(text_or_none(f"crates/{crate}/proofs/{path}.antt"), name)
    return has_code(text_or_none(f"crates/{crate}/src/{path}.rt"), name)


def stands(place, column):
    """Returns whether a place without names is there."""
    if place.startswith("scripts/"):
        return not list(wrong_commands(place))
    crate, path = parted(place)
    kinds = {"Definition": [f"crates/{crate}/specs/{path}.antt"], "Code": [f"crates/{crate}/src/{path}.rt", place]}
    kinds["Test"] = [f"crates/{crate}/src/{path}.rt", f"crates/{crate}/proofs/{path}.antt", place]
    return any(os.path.isfile(os.path.join(ROOT, it)) for it in kinds.get(column, []))


def clauses_of(crate, name):
    """Returns the clauses of the functions of a name, or none if there is no such function."""
    found = None
    for text in sources_of(crate):
        for at in re.finditer(rf"\bfn {re.escape(name)}\b", text):
            rest = text[at.end() :]
            end = re.search(r"(?m)^\s*(?:\{|///|#\[|pub |fn )", rest)
            head = rest[: end.start()] if end else rest
            found = (found or set()) | set(re.findall(r"\b(?:ensures|requires) (\w+) \{", head))
    return found


def near(told, lines):
    """Returns whether a count that is told is that of the lines, but for a tenth or five lines."""
    return abs(lines - told) <= max(5, lines // 10)


class Rules:
    """What the documents say, and the cases of looking at it."""

    def __init__(self, cases):
        self.cases = cases
        documents = ("README.md", "docs/MODEL.md", "docs/PROOFS.md", "docs/GLOSSARY.md")
        self.readme, self.model, self.proofs, self.glossary = (text_or_none(it) or "" for it in documents)
        self.ids = cases.looked_at(ID.findall(self.model), "rules")
        self.counted = groups()

    def expect(self, holds, what):
        self.cases.expect(what, bool(holds))

    def names(self, what, cell, column):
        """Checks that what a cell names is there, and returns the places with these names."""
        found = named_in(cell)
        for place, names in found:
            if not names:
                self.expect(stands(place, column), f"{what}: {place}")
            for name in names:
                self.expect(in_file(place, name, column), f"{what}: {place} {name}")
        return found

    def rows(self):
        """Checks the rows of MODEL.md: each rule has one, and each edit is in one."""
        rows, edits = rows_of(self.model, COLUMNS), {}
        for rule in sorted(set(self.ids) | {it[0] for it in rows}):
            count = self.ids.count(rule)
            self.expect(count == 1, f"{rule}: the rule stands in MODEL.md {count} times")
            count = sum(it[0] == rule for it in rows)
            self.expect(count == 1, f"{rule}: it has {count} rows in MODEL.md")
        for cells in rows:
            self.expect(len(cells) == len(COLUMNS), f"{cells[0]}: its row has {len(cells)} cells")
            for column, cell in zip(COLUMNS[1:], cells[1:]):
                for place, names in self.names(f"{cells[0]}, {column}", cell, column):
                    for name in names if column == "Edit" else []:
                        edits.setdefault(f"{place}/{name}", []).append(cells[0])
        there = [it.split("/") for it in edits_of("*")]
        for edit in self.cases.looked_at([f"{it[1]}/{it[3].removesuffix('.edit')}" for it in there], "edits"):
            of = edits.get(edit, [])
            self.expect(len(of) == 1, f"the edit {edit} stands in these rules: {', '.join(of) or 'none'}")

    def cards(self):
        """Checks that each rule has an example, and names that stand in its row."""
        cells = {row[0]: row for row in rows_of(self.model, COLUMNS)}
        parts = ID.split(self.model)
        for rule, text in zip(parts[1::2], parts[2::2]):
            card = CARD.match(text, text.find("  - *Example:*"))
            self.expect(card, f"{rule}: it has no example with a line of names")
            for column, named in zip((1, 2, 3), card.groups() if card else ()):
                row = TICKED.findall(cells.get(rule, [""] * 4)[column])
                for name in TICKED.findall(named):
                    self.expect(name.rpartition("::")[2] in row, f"{rule}: its row has no {COLUMNS[column].lower()} {name}")

    def promises(self):
        """Checks that contracts of promises are there, and that each rule has a promise."""
        promises = self.cases.looked_at(rows_of(self.proofs, PROMISES), "promises")
        for cells in promises:
            is_one = len(cells) == len(PROMISES) and cells[0] in self.ids
            self.expect(is_one, f"a promise of PROOFS.md is of no rule, or has not three cells: {cells[0]}")
            crate = ""
            for word, clauses in CONTRACT.findall(cells[-1]):
                if is_place(word):
                    crate = word
                    continue
                found = clauses_of(crate, word.rpartition("::")[2])
                self.expect(found is not None, f"{cells[0]}, contract: {crate} {word}")
                for clause in TICKED.findall(clauses):
                    self.expect(clause in (found or ()), f"{cells[0]}, contract: {crate} {word}, clause {clause}")
        for rule in self.ids:
            self.expect(any(it[0] == rule for it in promises), f"{rule}: no promise of PROOFS.md is of it")

    def reading(self):
        """Checks that the reading list has each file of the first groups, with its lines."""
        listed = {}
        for cells in self.cases.looked_at(rows_of(self.proofs, READING), "rows of the reading list"):
            listed.update(re.findall(r"`([^`]+)` (\d+)", cells[1]))
        for place, told in listed.items():
            crate, path = parted(place)
            is_there = text_or_none(f"crates/{crate}/specs/{path}.antt") is not None
            self.expect(is_there, f"the reading list: {place}")
            lines = lines_of(place) if is_there else 0
            self.expect(near(int(told), lines), f"the reading list: {place} has {lines} lines, and not {told}")
        for _, names in list(self.counted.values())[:READ_GROUPS]:
            for name in names:
                self.expect(name in listed, f"the reading list lacks {name}")

    def words(self):
        """Checks that each word of the glossary lives where it says."""
        for cells in self.cases.looked_at(rows_of(self.glossary, WORDS), "words"):
            text = ""
            for word in TICKED.findall(cells[2]):
                if "/" in word:
                    text = text_or_none(f"crates/{word}") if "*" not in word else ""
                    self.expect(text is not None, f"the word {cells[0]}: {word}")
                else:
                    self.expect(re.search(rf"\b{re.escape(word)}\b", text or ""), f"the word {cells[0]}: {word}")

    def claims(self):
        """Checks that each bullet of README rests on rules, and names the headings above these."""
        claims = CLAIM.findall(self.readme.partition("\n## What is proved")[2].partition("\n## ")[0])
        for claim in self.cases.looked_at(claims, "claims"):
            what = "README.md, " + claim.partition("**")[2].partition("**")[0]
            links = RULE_LINK.findall(" ".join(claim.split()))
            self.expect(links, f"{what}: it rests on no rule")
            for rule, anchor in links:
                self.expect(rule in self.ids, f"{what}: {rule} is no rule")
                above = anchors(self.model.partition(f"\n- **{rule}.**")[0])[-1:]
                self.expect(above == [anchor], f"{what}: {rule} does not stand under {anchor}")

    def counts(self):
        """Checks the tables of lines."""
        counts = [lines for lines, _ in self.counted.values()]
        told = [int(it[-1].replace(",", "")) for it in rows_of(self.readme, COUNTS)]
        holds = len(told) == len(counts) and all(near(*it) for it in zip(told, counts))
        self.expect(holds, f"README.md counts definitions as {told}, and they are {counts}")
        for cells in rows_of(self.proofs, FURTHER):
            lines = int(cells[-1].replace(",", ""))
            self.expect(any(near(lines, it) for it in counts), f"PROOFS.md, {cells[0]}: it has not {lines} lines")


def run(cases, _):
    rules = Rules(cases)
    rules.rows()
    rules.cards()
    rules.promises()
    rules.reading()
    for cells in cases.looked_at(rows_of(rules.proofs, SHOWN), "facts that no contract says"):
        rules.names(f"what no contract says, {cells[0]}", cells[1], "Test")
    rules.words()
    rules.claims()
    rules.counts()
