"""Tests `scripts/build unproved` by a stand-in for the kit: its words, and the parts of a module.

What the launcher makes of it is tested by `scripts/test launcher`, and what it builds by all parts that build.
"""
import os
import re

from parts.build import unproved
from parts.stand_ins import LOG, MODULE, NO_RT, any_text, case, play, same
from parts.stand_ins import words_of_cases as arguments

run = play
TELLS = "build unproved: "


@case(
    "words that are taken, or told otherwise",
    ("", 2, "usage: "),
    ("tscache", 2, "usage: "),
    ("tscache out name more", 2, "usage: "),
    ("--test --library tscache out", 2, "usage: "),
    ("-x out", 2, "usage: "),
    ("none out", 70, f"{TELLS}the program was not built: there is no crate none\n"),
    ("low new/out", 0, f"{TELLS}building low, about a minute\n"),
)
def words_of(place, words, status, told):
    words = ["unproved", *words.split()]
    script = f"{place.root}/scripts/build"
    got = place.call(*words, launcher=script)
    same((got[:2], got[2].startswith(told), os.path.exists(f"{place.here}/out")), ((status, ""), True, False))
    if status == 0:
        same((got[2], os.listdir(f"{place.here}/new"), os.access(f"{place.here}/new/out", os.X_OK)), (told, ["out"], True))
        place.write("told/fails", "low")
        failed = f"{TELLS}the program was not built: low was not compiled: {LOG.splitlines()[3]}\n"
        same(place.call(*words, launcher=script)[::2], (70, told + LOG + failed))
        place.without("rt")
        same(place.call(script, *words, launcher=f"{place.room}/few/python3")[::2], (127, NO_RT.replace("tscache: ", TELLS)))


def parts_of(text, is_whole=False):
    """A module's parts as it makes them: their levels, what each defines and what it takes."""
    module = unproved.Module(text.splitlines(keepends=True))
    found = []
    for level, lines in module.whole() if is_whole else module.parts():
        part = "".join(lines)
        same(part, any_text('source_filename = "rattle"\n.*declare void @free\\(ptr\\)\nattributes #0 = { nounwind }\n'))
        defined = re.findall(r'^(?:define (\w+ )?\S+ )?(@"?[\w.:]+"?)(?= =|\()', part, re.M)
        taken = re.findall(r'^declare hidden void (@"\S+?")\(', part, re.M)
        found.append((level, {name: kind.strip() for kind, name in defined}, taken))
    return found


@case("a part of a module that lacks what it uses, or has what nothing uses or changes elsewhere")
def a_module_in_parts(place):
    words, reader, own, inner = '@"clap::Command::new"', '@"tsc_trace_fast::reader::read_trace"', '@"own"', '@"clap::inner"'
    first = {"@static.1": "", "@main": "", own: "internal"}
    second = {"@static.1": "", words: "hidden", inner: "internal", own: "internal"}
    same(parts_of(MODULE), [("-O3", first, [words, reader]), ("-O1", second, []), ("-O3", {reader: "hidden"}, [])])
    whole = {**first, words: "internal", inner: "internal", reader: "internal"}
    same(parts_of(MODULE, is_whole=True), [("-O3", whole, [])])
    changed = MODULE.replace('  call void @"own"()\n', '  call void @"own"()\n  store i8 1, ptr @static.0\n')
    same(parts_of(changed), [("-O3", {**whole, "@static.0": ""}, [])])
    other = MODULE.replace("clap::", "tsc_c::").replace("tsc_trace_fast::", "tsc_cache::")
    same(parts_of(other), parts_of(other, is_whole=True))
