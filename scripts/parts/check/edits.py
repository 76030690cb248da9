"""Says which retired edits no longer apply to the sources, and has the prover refuse them if asked.

A retired edit is a wrong body in `retired-edits/CRATE/NAME.edit`, in the format of
`crates/CRATE/must-fail/`. The prover refused it once, and the gate only sees that it applies: an
edit of `must-fail/` turns the same clause or the same kind of call.

--prove puts the edits that apply into a copy of their crates and of the crates below, with what is
kept there, and calls `rt must-fail` for all of these at once. Without names of crates it tries all.
"""
import os
import shutil

from parts.frame import ROOT, Fault, call, needs_rt, outcome, temporary, text_of, write
from parts.repository import below, crates, edits_of, lines_of_crates

RETIRED = "retired-edits/*"


def why_not(edit, crate):
    """Returns why an edit does not apply to the sources of its crate, or none if it does."""
    path, old, texts, pairs = "", None, {}, 0
    for line in text_of(edit).splitlines():
        word, _, rest = line.partition(": ") if ": " in line else (line.rstrip(":"), "", "")
        if word == "file":
            path = f"crates/{crate}/{rest}"
            if not os.path.isfile(f"{ROOT}/{path}"):
                return f"there is no file {rest}"
            texts.setdefault(path, text_of(path))
        elif word == "old":
            old = rest
        elif word == "new":
            if not path or not old:
                return "a line 'new:' stands before any line 'file:' or 'old:'"
            count = texts[path].count(old)
            if count != 1:
                return f"its old text stands {count} times in {os.path.basename(path)}, and not once"
            texts[path] = texts[path].replace(old, rest)
            old, pairs = None, pairs + 1
    return None if pairs else "it has no pair of lines 'old:' and 'new:'"


def prove(cases, applying):
    """Tries edits, which stand below their crates, in a copy."""
    needed = below(applying, crates())
    with temporary() as room:
        write(f"{room}/crates.txt", "".join(lines_of_crates(needed)))
        shutil.copy(f"{ROOT}/HANDLES", room)
        os.mkdir(f"{room}/crates")
        for crate in sorted(needed):
            call("cp", "-r", "--reflink=auto", f"{ROOT}/crates/{crate}", f"{room}/crates")
            shutil.rmtree(f"{room}/crates/{crate}/must-fail", ignore_errors=True)
        for crate, edits in applying.items():
            os.mkdir(f"{room}/crates/{crate}/must-fail")
            for edit in edits:
                shutil.copy(f"{ROOT}/{edit}", f"{room}/crates/{crate}/must-fail")
        ended = outcome("rt", "must-fail", *applying, cwd=room, seconds=None, stdout=None, stderr=None)
        cases.expect("the prover refuses each edit", ended[0], 0)


def arguments(parser):
    parser.add_argument("--prove", action="store_true", help="has the prover refuse them, which takes long")
    parser.add_argument("crate", nargs="*", help="a crate whose retired edits are looked at, instead of all")


def run(cases, given):
    known = {it.split("/")[1] for it in edits_of("*", RETIRED)}
    unknown = [it for it in given.crate if it not in known]
    if unknown:
        raise Fault(f"there are no retired edits of {unknown[0]}", 2)
    if given.prove:
        needs_rt()
    applying = {}
    for edit in cases.looked_at([it for crate in given.crate or ["*"] for it in edits_of(crate, RETIRED)], "retired edits"):
        crate = edit.split("/")[1]
        why = why_not(edit, crate)
        cases.expect(f"{crate}/{os.path.basename(edit)} does not apply: {why}", why is None)
        if why is None:
            applying.setdefault(crate, []).append(edit)
    if given.prove:
        prove(cases, applying)
