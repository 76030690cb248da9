"""Runs the examples of `///` and `//!` comments in the crates that a store's author calls.

One crate is made of them in a temporary folder, beside a copy of the others. There each example is a
test, which `rt try --test` runs without proofs, in a minute. A block that begins with `use` stands
before the examples of its crate. `scripts/check examples` looks that each public call has an example.
"""
import re
import shutil

from parts.frame import ROOT, needs_rt, outcome, say, temporary, text_of, write
from parts.repository import EXAMPLE_CRATES, EXAMPLE_LIBRARIES, doc_examples

CRATE = "doc_examples"
TEST = """/// {path}, line {line}
#[test]
fn {name}(rt: HostRuntime) -> Result<(), Fail> {{
    let alloc = rt.alloc();
{body}
    Ok(())
}}
"""


def module_of(examples):
    """Returns the source of a crate's examples, and the names of its tests."""
    head, tests, names = "", [], []
    for it in examples:
        if it.is_head:
            head += it.text
        else:
            name = f"example_of_{it.name}"
            names.append(name if name not in names else f"{name}_{it.line}")
            body = "".join(f"    {line}\n" for line in it.text.splitlines()).rstrip()
            tests.append(TEST.format(path=it.path, line=it.line, name=names[-1], body=body))
    return f"{head}\n" + "\n".join(tests), names


def run(cases, _):
    needs_rt()
    say("trying the examples of comments, which takes a minute")
    wanted, modules = [], ""
    with temporary() as room:
        shutil.copy(f"{ROOT}/HANDLES", room)
        shutil.copytree(f"{ROOT}/crates", f"{room}/crates", ignore=shutil.ignore_patterns("out"))
        for crate in EXAMPLE_CRATES:
            source, names = module_of(doc_examples(crate))
            modules += f"#[cfg(test)]\nmod in_{crate};\n"
            wanted += [f"in_{crate}::{name}" for name in names]
            write(f"{room}/crates/{CRATE}/src/in_{crate}.rt", source)
        write(f"{room}/crates/{CRATE}/src/lib.rt", f"#![tactic(auto)]\n\n{modules}")
        libraries = " ".join(EXAMPLE_CRATES + EXAMPLE_LIBRARIES)
        write(f"{room}/crates.txt", f"{text_of('crates.txt')}{CRATE}: {libraries}\n")
        _, told = outcome("rt", "try", "--test", cwd=f"{room}/crates/{CRATE}")
    ran = re.findall(r"^test (\S+) \.\.\. ok$", told, re.M)
    if len(ran) < len(wanted):
        print(told)
    for test in wanted:
        cases.expect(test, test in ran)
