"""Prints what a page has inside after the Adds of a trace.

It writes a program that makes the Adds on one `Page`, tries it without proofs beside the crates that
a page stands on, and reads the page as `Debug` prints it. That takes a minute or two. A span of the
trace may have `start` and `end` alone, and the page at most 64 leaves. The lines are these, with
each owner `none` or a UUID:

    leaf TIME OWNER lazy TIME OWNER     the joint and the lazy value of a leaf; `none` for none
    KEY TIME OWNER TIME OWNER           a node of it: what its key and the gap behind it have
"""
import json
import re
import shutil

from parts.frame import ROOT, Fault, needs_rt, outcome, temporary, text_at, write
from parts.repository import below, crates, lines_of_crates

CRATE = "show_page"
PROGRAM = """//! Makes the Adds of a trace on a page, and prints it.
#![tactic(auto)]

use anyhow::Result;
use std::alloc::Global;
use tsc_page::{IntervalPage, MOST_SIZE, Page};
use tsc_span::{Key, Span};
use tsc_time::{Timestamp, Value};
use uuid::Uuid;

static ADDS: [(&[u8], &[u8], u64, u32, u128); %d] = [
%s];

fn main(rt: HostRuntime) -> Result<()> {
    let mut page = Page::new(rt.alloc(), MOST_SIZE, Timestamp::ZERO)?;
    for add in &ADDS {
        make(rt.alloc(), &mut page, *add)?;
    }
    println!(&rt; "{page:?}")?;
    Ok(())
}

fn make(alloc: Global, page: &mut Page, add: (&[u8], &[u8], u64, u32, u128)) -> Result<()> {
    let (start, end, wall, logical, owner) = add;
    let span = Span::of(Key::new(alloc, start)?, Key::new(alloc, end)?)?;
    let Some(time) = Timestamp::new(wall, logical) else {
        return Ok(());
    };
    page.add(&span, Value::of(time, Uuid::from_u128(owner)))?;
    Ok(())
}
"""

VALUE = r"Value \{ wall: (\d+), logical: (\d+), owner: (?:None|Some\(([0-9a-f-]+)\)) \}"
LEAF = re.compile(
    rf"Leaf \{{ aggregate: Aggregate \{{ start: .*?, joint: {VALUE}, lazy: (?:None|Some\({VALUE}\)) \}}, "
    r"nodes: Nodes \{ keys: \[(.*?)\], values: \[(.*?)\] \} \}"
)
KEY = re.compile(r"Key \{ bytes: \[([0-9, ]*)\] \}")
NODE = re.compile(rf"Values \{{ value: {VALUE}, gap: {VALUE} \}}")


def marks_of(trace):
    """Returns the marks of a trace in the order of a replay."""
    for call in (call for calls in trace["threads"] for call in calls):
        yield from {"add": [call], "batch": call.get("marks")}.get(call["op"], [])


def bytes_of(key):
    return "&[" + ", ".join(str(it) for it in bytes.fromhex(key)) + "]"


def row_of(mark):
    span, (wall, logical) = mark["span"], mark["time"]
    if not set(span) <= {"start", "end"}:
        raise Fault("a span may have `start` and `end` alone", 1)
    owner = (mark.get("owner") or "0").replace("-", "")
    keys = f"{bytes_of(span['start'])}, {bytes_of(span.get('end', ''))}"
    return f"    ({keys}, {wall}, {logical}, 0x{owner}),\n"


def value(wall, logical, owner):
    return f"{wall}.{logical} {owner or 'none'}" if wall else "none"


def lines_of(page):
    """Returns the lines of a page that `Debug` printed."""
    if "root: One(" not in page:
        raise Fault("the page has more than 64 leaves", 1)
    for found in LEAF.findall(page):
        keys, nodes = KEY.findall(found[6]), NODE.findall(found[7])
        if not keys or len(keys) != len(nodes):
            raise Fault("the page is printed in another form", 1)
        yield f"leaf {value(*found[:3])} lazy {value(*found[3:6])}"
        for key, node in zip(keys, nodes):
            name = bytes(map(int, filter(None, key.split(", ")))).hex() or "-"
            yield f"{name} {value(*node[:3])} {value(*node[3:])}"


def arguments(parser):
    parser.add_argument("trace")


def main(given):
    needs_rt()
    rows = [row_of(mark) for mark in marks_of(json.loads(text_at(given.trace)))]
    names = below(["tsc_page"], crates())
    with temporary() as room:
        for name in names:
            skip = shutil.ignore_patterns("out", "must-fail")
            shutil.copytree(f"{ROOT}/crates/{name}", f"{room}/crates/{name}", ignore=skip)
        shutil.copy(f"{ROOT}/HANDLES", room)
        lines = [*lines_of_crates(names), f"{CRATE}: {' '.join(sorted(names))} uuid anyhow\n"]
        write(f"{room}/crates.txt", "".join(lines))
        write(f"{room}/crates/{CRATE}/src/main.rt", PROGRAM % (len(rows), "".join(rows)))
        status, told = outcome("rt", "try", cwd=f"{room}/crates/{CRATE}")
    page = re.search(r"^Page \{.*\}$", told, re.M)
    if status or not page:
        raise Fault(f"the program was not tried:\n{told}", 1)
    print("\n".join(lines_of(page[0])))
