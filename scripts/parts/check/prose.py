"""Measures the prose of each document, and follows its links, its paths and its commands.

A document is any file that ends in `.md`. The limits are WIDEST columns, MEAN words per sentence on
average, LONGEST words in any sentence, and no words of AVOIDED. Documents in EXEMPT are measured
and keep no limit. With names of files it prints the measures of these, and checks nothing.

In every document a link to a file or a heading has to lead to one. A code span that begins with a
folder of the repository, as `docs/`, has to name what is there, but for what is built. NAME and
CRATE stand for any name. In every text of the repository a command of `scripts/` has to be there,
with its part.

Fenced code has a width and no sentences. Rows of tables have no width, and their cells count for
the longest sentence alone. A code span and a link each count as the words that a reader sees, a
code span as one. Sentences of one or two words count for no mean.
"""
import glob
import os
import re

from parts.frame import ROOT, parts_of, text_of
from parts.repository import anchors, text_or_none

WIDEST = 100
MEAN = 18.0
LONGEST = 30
AVOIDED = re.compile(r"\b(?:told|so many|as it were)\b", re.I)
# The documents that keep no limit: changes stand as they were written.
EXEMPT = [
    "CHANGELOG.md",
]
# The folders of the repository that code spans name.
FOLDERS = (
    ".ci/", "bindings/", "crates/", "docs/", "examples/", "include/", "packaging/", "scripts/",
)
# Folders that hold no document of the project.
PASSED_OVER = {".git", "out", "target"}
# What names a command: some with parts, and some without.
KINDS = ("check", "build", "test", "refuse", "measure", "draw")
COMMAND = re.compile(r"scripts/([a-z][a-z-]*)(?: ([a-z][a-z-]*))?(?![\w./])")

FENCE = re.compile(r"^\s*(```|~~~)")
ITEM = re.compile(r"^\s*(?:[-*+]|\d+\.)\s+")
ROW = re.compile(r"^\s*\|")
HEADING = re.compile(r"^#+ ")
CODE = re.compile(r"(`+)(?:.*?[^`])?\1(?!`)")
LINK = re.compile(r"!?\[([^\]]*)\]\([^)]*\)")
END = re.compile(r"(?<=[.?!])[*_)\"]*\s+(?=[A-Z0-9*_(\"])|(?<=:)\s+(?=[A-Z])")
WORD = re.compile(r"[A-Za-z0-9]")
SPAN = re.compile(r"`([^`\n]+)`")
TARGET = re.compile(r"\]\(([^)\s]+)\)")


def texts(ending=""):
    """Returns the path of each file with an ending, from the top of the repository."""
    found = []
    for folder, folders, names in os.walk(ROOT):
        folders[:] = sorted(set(folders) - PASSED_OVER)
        found += [os.path.relpath(f"{folder}/{name}", ROOT) for name in names if name.endswith(ending)]
    return sorted(found)


def parts(text):
    """Returns the paragraphs and items of a text, and the cells of its tables."""
    prose, cells, part, fenced = [], [], [], False

    def end():
        if part:
            prose.append(" ".join(part))
            part.clear()

    for line in text.split("\n"):
        if FENCE.match(line):
            fenced = not fenced
            end()
        elif fenced:
            continue
        elif ROW.match(line):
            end()
            cells += CODE.sub("Code", line).strip().strip("|").split("|")
        elif not line.strip() or HEADING.match(line):
            end()
        else:
            if ITEM.match(line):
                end()
            part.append(ITEM.sub("", line).strip())
    end()
    return prose, cells


def sentences(part):
    """Returns the sentences of a paragraph, each as its number of words."""
    seen = LINK.sub(r"\1", CODE.sub("Code", part))
    return [sum(1 for it in one.split() if WORD.search(it)) for one in END.split(seen)]


def lost(path, text):
    """Returns each link and each path of a document that leads nowhere."""
    bare = re.sub(r"^\s*```.*?^\s*```", "", text, flags=re.M | re.S)
    for target in TARGET.findall(CODE.sub("", bare)):
        name, _, anchor = target.partition("#")
        if re.match(r"[a-z]+:", name):
            continue
        place = os.path.normpath(os.path.join(ROOT, os.path.dirname(path), name)) if name else None
        if place and not os.path.exists(place):
            yield target
        elif anchor and anchor not in anchors(text_of(place) if place else text):
            yield target
    for span in SPAN.findall(bare):
        name = span.split()[0].rstrip(",;") if span.strip() else ""
        any_name = re.sub(r"\b(?:NAME|CRATE)\b", "*", name)
        near = os.path.join(ROOT, os.path.dirname(path), any_name)
        there = glob.glob(os.path.join(ROOT, any_name)) + glob.glob(near)
        is_built = PASSED_OVER.intersection(name.split("/"))
        if name.startswith(FOLDERS) and not is_built and not there:
            yield name


class Measures:
    """What is measured of one document."""

    def __init__(self, text):
        prose, cells = parts(text)
        lines = [line for line in text.split("\n") if not ROW.match(line)]
        of_prose = [n for part in prose for n in sentences(part)]
        of_cells = [n for cell in cells for n in sentences(cell)]
        counted = [n for n in of_prose if n > 2]
        self.words = len(text.split())
        self.lines = text.count("\n")
        self.widest = max(map(len, lines))
        self.sentences = len(counted)
        self.mean = sum(counted) / len(counted) if counted else 0.0
        self.longest = max(of_prose + of_cells, default=0)
        self.avoided = [word for part in prose + cells for word in AVOIDED.findall(part)]

    def __str__(self):
        return (
            f"{self.words} words, {self.lines} lines, widest {self.widest}; "
            f"{self.sentences} sentences, mean {self.mean:.1f}, longest {self.longest}"
        )


def wrong_commands(text):
    """Returns each command of `scripts/` that a text names and that is not there."""
    known = {kind: parts_of(kind) for kind in KINDS}
    for found in COMMAND.finditer(text):
        kind, part = found.groups()
        if kind in known:
            is_there = part is None or part in known[kind] or (kind, part) == ("check", "all")
        else:
            is_there = os.path.exists(f"{ROOT}/scripts/{kind}")
        if not is_there:
            yield found[0]


def arguments(parser):
    parser.add_argument("file", nargs="*", help="a file to measure alone")


def run(cases, given):
    found = given.file or cases.looked_at(texts(".md"), "documents")
    for path in found:
        text = text_of(path)
        it = Measures(text)
        print(f"{'exempt: ' if path in EXEMPT else ''}{path}: {it}")
        if given.file:
            continue
        limits = (
            (0 < it.widest <= WIDEST, f"a line of {it.widest} columns"),
            (it.mean <= MEAN, f"{it.mean:.1f} words per sentence"),
            (it.longest <= LONGEST, f"a sentence of {it.longest} words"),
            (not it.avoided, f"the words {', '.join(it.avoided)}"),
        )
        if path not in EXEMPT:
            for holds, what in limits:
                cases.expect(f"{path}: {what}", holds)
        elif all(holds for holds, _ in limits):
            print(f"{path} keeps all limits and may leave EXEMPT")
        nowhere = sorted(set(lost(path, text)))
        cases.expect(f"{path}: nothing at {', '.join(nowhere)}", not nowhere)
    if given.file:
        return
    for path in EXEMPT:
        cases.expect(f"{path} is exempt and does not exist", path in found)
    named = {path: text for path in texts() if "scripts/" in (text := text_or_none(path) or "")}
    for path, text in cases.looked_at(named, "texts that name scripts").items():
        wrong = sorted(set(wrong_commands(text))) if path not in EXEMPT else []
        cases.expect(f"{path}: no command {', '.join(wrong)}", not wrong)
