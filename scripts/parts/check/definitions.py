"""Counts the lines of definitions that a reader has to believe, and looks for laws that nobody proves.

It prints a line for each of the groups that README.md names: of the files of `specs/` that clauses
of public functions cite, and of all that these import. Blank lines and imports aren't counted, and
comments are. A file counts in the first group that leads to it. With --files it prints these too.

Each file that such a clause cites stands in a group, or among those of private contracts, with a
reason. Each law has to be named by a clause of a function of a `laws.rt` or `log_laws.rt`. A law is
a proposition of `specs/` that speaks of all things of a kind, or any of a file of laws.
"""
import re
from fnmatch import fnmatch

from parts.frame import text_of
from parts.repository import crates, files, text_or_none

# The groups, and whose definitions these are.
GROUPS = {
    "the cache": ["tsc_time/*", "tsc_span/*", "tsc_page_model/*", "tsc_page/*", "tsc_cache/*"],
    "what threads are promised": ["tsc_shared/*"],
    "when a write is clear of reads, and what is told of a lease": [
        "timestamp_cache/[!S]*", "timestamp_cache/SeatSummaries",
    ],
    "a cache in stripes": ["tsc_striped/*", "tsc_stripe_table/Stripes", "tsc_striped_leases/*"],
    "the bytes of a summary": ["timestamp_cache/Summary*"],
    "traces, logs, verdicts, runs and the program": [
        "tsc_stream/*", "tsc_trace_format/*", "tsc_trace_fast/*", "tsc_trace/*", "tsc_check/[!B]*",
        "tsc_run/*", "tsc_commands/*",
    ],
    "the library for C": ["tsc_check/Bytes", "tsc_ffi_store/*", "tsc_c/*"],
    "transactions of a range": ["mvcc_versions/*", "mvcc_range/*", "mvcc_shared/*"],
}
NODES = "the nodes inside a page: its own contract says what the page stands for"
# The files that only contracts within the cache cite, though a function of them is public.
PRIVATE = {
    "tsc_page_nodes/Insertions": NODES,
    "tsc_page_nodes/KeyAdds": NODES,
    "tsc_page_nodes/Nodes": NODES,
    "tsc_span/Prefixes": "prefixes, by which a page is searched: what is found is said of keys and cuts",
    "tsc_page_tree/*": "the tree inside a page: its own contract says what the page stands for",
    "tsc_left_right/*": "the two copies inside a shared cache: its contract says what a seat sees",
    "tsc_stripe_table/[!S]*": "the table of stripes: the calls of a striped cache say what a seat sees",
    "tsc_stripe_table/Steps": "the table of stripes: the calls of a striped cache say what a seat sees",
    "tsc_check/CheckParts": "the steps of a check: `Verdict` says what it answers",
    "mvcc_versions/Maps": "the map of versions inside a range: its contract says what is read",
    "tsc_ffi_store/Lending": "how the library for C lends what a handle names to its own calls",
    "example_*/*": "the store of an example, on which nothing stands",
}
SPEC = r"Rattle\.(\w+)\.specs\.([A-Z]\w*)\."
USE = re.compile(rf"use {SPEC}(\{{[^}}]*\}}|[^;\n]+)")
IMPORT = re.compile(rf"^(?:pub )?use {SPEC}", re.M)
UNCOUNTED = re.compile(r"\s*$|(pub )?(use|open) ")
FUNCTION = re.compile(r"^([ \t]*)(pub )?(?:const |unsafe |(extern \"C\" ))*fn (\w+)", re.M)
# What the functions of std's traits give, where a type has these.
IMPL = re.compile(r"^(?:unsafe )?impl\b[^\n]* for .*?^\}", re.M | re.S)
GIVES = re.compile(r"^ *ghost (eq|cmp|partial_cmp|(?:try_)?from_gives) = (\{.*?\});$", re.M | re.S)
HEAD_END = re.compile(r"^\s*(?:\{\}?\s*$|///|#\[|pub |fn |\})", re.M)
CLAUSES = re.compile(r"\b(?:ensures|requires)\b.*", re.S)
WORD = re.compile(r"[^\s(){}\[\],.;]+")
# A definition without parameters whose type is that of propositions; and one that is for all.
CLOSED = re.compile(r"^(?:abbrev |unfoldable )*(?:pub )?(?:abbrev |record )*(?:pub )?(\w+) : Type 0\b(?: where)?\n", re.M)
FOR_ALL = re.compile(r"\((?:[^():]+ )?: |\([^():]+ : ")
LAWS = "aws.rt"


def head_of(text, at):
    """Returns what stands between the name of a function and its body."""
    rest = text[at:]
    end = HEAD_END.search(rest)
    return rest[: end.start()] if end else rest


def public_clauses(text):
    """Yields each function that others may call, with its clauses."""
    impls = [(it.start(), it.end()) for it in IMPL.finditer(text)]
    for found in FUNCTION.finditer(text):
        is_of_trait = found[1] and any(start < found.start() < end for start, end in impls)
        clauses = CLAUSES.search(head_of(text, found.end()))
        if clauses and (found[2] or found[3] or is_of_trait):
            yield found[4], clauses[0]
    for start, end in impls:
        yield from GIVES.findall(text[start:end])


def imported_names(text):
    """Returns the names that a source takes from definitions, each with its file and its name
    there."""
    names = {}
    for crate, file, listed in USE.findall(text):
        for it in re.split(r"[{},]", listed):
            words = it.split()
            if words:
                names[words[-1]] = (f"{crate}/{file}", words[0])
    return names


def citations():
    """Returns each file of definitions with the public functions whose clauses cite it, and which
    names the clauses of laws name."""
    cited, proved = {}, set()
    for crate in crates():
        for path in files(f"crates/{crate}/src/**/*.rt"):
            text = text_of(path)
            names = imported_names(text)
            for function, clauses in public_clauses(text):
                for word in set(WORD.findall(clauses)) & names.keys():
                    cited.setdefault(names[word][0], []).append(f"{path}: {function}")
                    if path.endswith(LAWS):
                        proved.add(names[word])
    return {it: by for it, by in cited.items() if it.partition("/")[0] in crates()}, proved


def path_of(name):
    crate, _, file = name.partition("/")
    return f"crates/{crate}/specs/{file}.antt"


def reached(names):
    """Returns these files of definitions, and all that they import."""
    found, left, known = set(), list(names), crates()
    while left:
        name = left.pop()
        text = text_or_none(path_of(name)) if name not in found else None
        if text is not None:
            found.add(name)
            left += [f"{crate}/{file}" for crate, file in IMPORT.findall(text) if crate in known]
    return found


def is_private(name):
    return any(fnmatch(name, it) for it in PRIVATE)


def group_of(name):
    return next((group for group, of in GROUPS.items() if any(fnmatch(name, it) for it in of)), None)


def lines_of(name):
    return sum(not UNCOUNTED.match(line) for line in text_of(path_of(name)).splitlines())


def groups(cited=None):
    """Returns the groups, each with its lines and its files."""
    roots = [it for it in (citations()[0] if cited is None else cited) if not is_private(it)]
    counted, found = set(), {}
    for group in GROUPS:
        names = reached([it for it in roots if group_of(it) == group]) - counted
        counted |= names
        found[group] = sum(map(lines_of, names)), sorted(names)
    return found


def laws():
    """Yields the file and the name of each law."""
    for crate in crates():
        for path in files(f"crates/{crate}/specs/*.antt"):
            name, text = f"{crate}/{path.rpartition('/')[2].removesuffix('.antt')}", text_of(path)
            for found in CLOSED.finditer(text):
                body = text[found.end() :].removeprefix(f"{found[1]} = ")
                is_for_all = body is not text[found.end() :] and FOR_ALL.match(body)
                if name.endswith("Laws") or is_for_all:
                    yield name, found[1]


def arguments(parser):
    parser.add_argument("--files", action="store_true", help="print the files of each group too")


def run(cases, given):
    cited, proved = citations()
    counted = groups(cited)
    for group, (lines, names) in counted.items():
        print(f"{lines:5}  {group}")
        if given.files:
            print(*(f"       {path_of(it).removeprefix('crates/')}" for it in names), sep="\n")
    for group, (lines, _) in counted.items():
        cases.expect(f"{group}: no definitions", lines > 0)
    everywhere = {it for _, names in counted.values() for it in names}
    for name, by in sorted(cases.looked_at(cited, "files that public contracts cite").items()):
        is_sorted = is_private(name) or name in everywhere
        cases.expect(f"{name} is in no group and not private: {', '.join(by[:3])} cites it", is_sorted)
    for pattern in PRIVATE:
        is_needed = any(fnmatch(it, pattern) and it not in everywhere for it in cited)
        cases.expect(f"{pattern} is private, and no public contract cites it alone", is_needed)
    for law in cases.looked_at(list(laws()), "laws"):
        cases.expect(f"{law[0]}: no law of the code says {law[1]}", law in proved)
