"""Checks that docs/LIVES.md follows calls through the code as it is.

Each row names a function of a file that has one of this name. Each row but the first of a table is
called by the body of a function in a row above it.
"""
import re

from parts.frame import text_of
from parts.repository import text_or_none

ROW = re.compile(r"\| `(\w+)` \| `([\w/.]+)` \| `([\w:]+)` \| (.+) \|")


def bodies(text, function):
    """Returns the bodies of all functions of that name in a file. A trait's method without one has
    none."""
    lines, found = text.splitlines(), []
    head = re.compile(rf"( *)(pub(\(\w+\))? )?(const |extern \"C\" )?fn {function}\b")
    for start, line in enumerate(lines):
        begins = head.match(line)
        if not begins:
            continue
        rest = range(start, len(lines))
        opening = re.compile(begins[1] + r"(\{|\).* \{)")
        is_opening = (opening.fullmatch(lines[at]) or at == start and line.endswith("{") for at in rest)
        opens = next((at for at, it in zip(rest, is_opening) if it), len(lines))
        if not any(lines[at].endswith(";") for at in range(start, opens)):
            end = next(at for at in rest if lines[at] == begins[1] + "}")
            found.append("\n".join(lines[opens : end + 1]))
    return found


def run(cases, _):
    above, rows = [], 0
    for line in text_of("docs/LIVES.md").splitlines():
        row = ROW.fullmatch(line)
        if not row:
            above = above if line.startswith("|") else []
            continue
        crate, file, named, _ = row.groups()
        function, rows = named.rpartition("::")[2], rows + 1
        text = text_or_none(f"crates/{crate}/src/{file}")
        found = bodies(text or "", function)
        is_called = not above or any(re.search(rf"\b{function}\b\s*\(", it) for it in above)
        if cases.expect(f"crates/{crate}/src/{file} has no function {function}", bool(found)):
            cases.expect(f"no function above calls {function} of {crate}", is_called)
        above += found
    cases.looked_at(range(rows), "rows of docs/LIVES.md")
