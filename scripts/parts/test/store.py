"""Tests the store over RocksDB, as one who has installed a release builds it and runs it.

First come the checker's own tests. Then a release is made without proofs and installed to a temporary
folder. There the commands of docs/STORE.md build the store, test it and load it. A minute of load
with ten kills follows, in which nothing may be found, and a load for each flaw, which has to be
found. Where RocksDB 7 or CMake is missing, the checker's own tests are all.

No case depends on how fast the machine is. What has to be found is looked for again, with more
load, up to a limit.
"""
import os
import re
import shlex
import sys

from parts.builds import Builds, words_of
from parts.frame import ROOT, call, outcome, temporary, text_of, write
from parts.repository import blocks

STORE = "examples/rocks_store"
# A program with RocksDB, of a version that the store can be built over.
USE = """#include <rocksdb/c.h>
#include <rocksdb/version.h>
static_assert(ROCKSDB_MAJOR >= 7, "the store needs RocksDB 7");
int main() { rocksdb_free(nullptr); }
"""
# How many kills of a store that does not sync have to lose something: the first numbers mostly do.
KILLS = (2, 4, 8)


def has_rocksdb(work):
    """Returns whether a program with RocksDB can be compiled and linked."""
    write(f"{work}/use.cc", USE)
    made = outcome("c++", f"{work}/use.cc", "-lrocksdb", "-o", f"{work}/use")
    return made[0] == 0 and outcome(f"{work}/use")[0] == 0


def installed(cases, work, given):
    """Makes a release of what is committed, installs it, and returns its prefix."""
    clone, prefix, builds = f"{work}/clone", f"{work}/prefix", Builds(given, f"{work}/built")
    call("git", "clone", "-q", ROOT, clone)
    builds.program()
    builds.library()
    make = ["scripts/build", "release", "--unproved", "--built", builds.folder, f"{work}/release"]
    unpack = f"tar -xzf {shlex.quote(work)}/release/tscache-*.tar.gz && tscache-*/install.sh {shlex.quote(prefix)}"
    ended = outcome(*make, cwd=clone)
    if not ended[0]:
        ended = outcome("sh", "-c", unpack, cwd=work)
    cases.expect("a release is made and installed", ended[0], 0, ended[1])
    return prefix


def built_store(cases, work, prefix):
    """Builds, tests and loads the store as docs/STORE.md says, and returns the program."""
    os.mkdir(f"{work}/mine")
    commands = next((it for it in blocks(text_of("docs/STORE.md"), "sh") if "cmake --build" in it), "false\n")
    words = re.sub(r"\bPREFIX\b", lambda _: shlex.quote(prefix), commands)
    status, told = outcome("sh", "-ec", words, cwd=f"{work}/mine")
    found = [f"{at}/rocks_store" for at, _, names in os.walk(f"{work}/mine") if "rocks_store" in names]
    got = status, "warning" in told, len(found)
    is_built = cases.expect("the commands of docs/STORE.md, without a warning", got, (0, False, 1), told)
    return found[0] if is_built else None


def torture(cases, work, prefix, store):
    """Runs the store with kills and with flaws, by the installed script."""
    words = [sys.executable, f"{prefix}/share/tscache/{STORE}/torture", "--store", store]
    cases.take("a store that is killed", outcome(*words, "--kills", "10", "--every", "4,7"), 12)
    cases.take("flaws that are found", outcome(*words, "--flaws"), 8)
    for kills in map(str, KILLS):
        status, told = outcome(*words, "--work", f"{work}/kills-{kills}", "--kills", kills, "--flaw", "no-sync")
        if status:
            break
    got = status, told.rstrip().endswith(", 1 failed")
    cases.expect("kills of a store that does not sync", got, (1, True), told)


def arguments(parser):
    words_of(parser)


def run(cases, given):
    given.unproved = True
    cases.take("the checker's own tests", outcome(sys.executable, f"{ROOT}/{STORE}/test_check_history"))
    with temporary() as work:
        if not has_rocksdb(work):
            cases.not_run("the store over RocksDB: librocksdb-dev from version 7 on is missing")
        elif cases.has("cmake", "the store over RocksDB"):
            store = built_store(cases, work, installed(cases, work, given))
            if store:
                torture(cases, work, f"{work}/prefix", store)
