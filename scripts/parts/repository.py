"""What the repository has: its crates with their libraries, their edits, the examples of comments,
and the tables of documents."""
import collections
import glob
import os
import re

from parts.frame import ROOT, text_of

# The crates whose public calls have examples, what examples name besides, and an example: where it
# stands, what it is called after, and whether it stands before the others.
EXAMPLE_CRATES = ["timestamp_cache", "mvcc_range", "tsc_striped_leases"]
EXAMPLE_LIBRARIES = ["tsc_striped"]
Example = collections.namedtuple("Example", "path line name text is_head")


def crates(text=None):
    """Returns each crate of `crates.txt` with its libraries, lowest first."""
    lines = (text_of("crates.txt") if text is None else text).splitlines()
    heads = (line.partition("#")[0].partition(":") for line in lines)
    return {head.split()[0]: rest.split() for head, _, rest in heads if head.strip()}


def below(names, known):
    """Returns crates, and all that they stand on."""
    found, left = set(), list(names)
    while left:
        at = left.pop()
        if at in known and at not in found:
            found.add(at)
            left += known[at]
    return found


def lines_of_crates(names):
    """Returns the lines of `crates.txt` of these crates."""
    lines = text_of("crates.txt").splitlines(keepends=True)
    return [line for line in lines if line.partition(":")[0].split()[:1] and line.split()[0].rstrip(":") in names]


def files(pattern):
    """Returns the files that a pattern fits, from the top of the repository, sorted."""
    found = glob.glob(pattern, root_dir=ROOT, recursive=True)
    return sorted(it for it in found if os.path.isfile(os.path.join(ROOT, it)))


def text_or_none(path):
    try:
        return text_of(path)
    except (OSError, UnicodeDecodeError):
        return None


def edits_of(crate, folder="crates/*/must-fail"):
    """Returns the paths of a crate's edits."""
    return files(f"{folder.replace('*', crate)}/*.edit")


def rows_of(text, columns):
    """Returns the cells of each row of the tables with these columns."""
    rows, inside = [], False
    for line in text.splitlines():
        cells = [it.strip() for it in line.strip().strip("|").split(" | ")] if line.startswith("|") else []
        if cells == columns:
            inside = True
        elif not cells:
            inside = False
        elif inside and not line.startswith("|---"):
            rows.append(cells)
    return rows


def blocks(text, language):
    """Returns each block of code of a language in a document."""
    return re.findall(rf"^```{language}\n(.*?)^```$", text, re.M | re.S)


def doc_examples(crate):
    """Returns the examples in a crate's comments, each called after the function behind it."""
    found = []
    for path in files(f"crates/{crate}/src/*.rt"):
        text = text_of(path)
        for it in re.finditer(r"^ *//[/!] ```\n(.*?)^ *//[/!] ```$", text, re.M | re.S):
            lines = re.sub(r"^ *//[/!] ?", "", it[1], flags=re.M)
            call = re.match(r"\n(?: *///.*\n)* *pub fn (\w+)", text[it.end() :])
            name = call[1] if call else "the_head"
            found.append(Example(path, text.count("\n", 0, it.start()) + 1, name, lines, lines.startswith("use ")))
    return found


def public_calls(crate):
    """Returns the public functions of a crate, each with its file, but for its laws."""
    sources = (path for path in files(f"crates/{crate}/src/*.rt") if not path.endswith("/laws.rt"))
    return [(path, name) for path in sources for name in re.findall(r"^ *pub fn (\w+)", text_of(path), re.M)]


def anchors(text):
    """Returns the anchor of each heading of a document, in order, as the forges make them."""
    bare = re.sub(r"^```.*?^```$", "", text, flags=re.M | re.S)
    heads = re.findall(r"^#+ +(.*?)\s*$", bare, re.M)
    return [re.sub(r"[^\w\- ]", "", head).lower().replace(" ", "-") for head in heads]


def named(kind):
    """Returns the rows of a kind in `scripts/tests.txt`, without the kind."""
    lines = (line.partition(" ") for line in text_of("scripts/tests.txt").splitlines())
    return [rest.strip() for word, _, rest in lines if word == kind]


def filled(file_name, **words):
    """Returns a text of `packaging` with these words in it."""
    text = text_of(f"packaging/{file_name}.in")
    for word, value in words.items():
        text = text.replace(f"@{word.upper()}@", value)
    return text


def version():
    return text_of("VERSION").strip()


def number_of(version):
    """Returns what `TSC_VERSION` is of a version."""
    major, minor, patch = map(int, version.split("."))
    return major * 1_000_000 + minor * 1_000 + patch
