"""Tests the gate `.ci/run` without what it runs, and each part without what that tests.

A copy of `.ci/run`, in a small repository in a temporary folder, meets commands that say what each
case tells them. Then each part of `scripts/` meets what is broken: it doesn't compile, prints nothing,
or passes fewer cases than there are. No part may say that all is well.
"""
import contextlib
import io
import os
import re
import shutil
import subprocess
import sys
import time

from parts.check.definitions import GROUPS
from parts.draw.documents import drawn
from parts.frame import NO_RT, ROOT, Cases, command_of, outcome, temporary, text_at, text_of, write
from parts.test.library import ANSWERS as LOOKED_AT, DROPPED

# The parts of the gate, in their order, which stand in `scripts/`. The first one runs `rt ci`.
PARTS = [
    "measure gate", "check all", "test gate", "test launcher", "test interrupts", "test installed",
    "test unproved", "test first-answer", "test program", "refuse thread", "refuse growth", "refuse stop", "refuse handle", "test examples",
    "measure steps", "test library", "test release", "test store",
]
# What the gate itself calls, and what it installs for its parts where that is missing.
OWN_TOOLS = ["bash", "cat", "dirname", "grep", "mkfifo", "mktemp", "rm", "sh", "sort", "tail", "tee"]
NEEDED = ["go", "cargo", "clang", "cmake", "pkg-config", "dpkg-deb", "valgrind", "zsh", "mandoc"]
# A tool and a header, what stands in for others where it is missing, and what installs it.
MISSING = [
    ("go", {"go": None}, "printf '#!/bin/sh\\n' >{room}/bin/go; /bin/chmod +x {room}/bin/go"),
    ("rocksdb/db.h", {"c++": '[ -e "$TOLD/header" ]'}, 'echo >"$TOLD/header"'),
]
# How many cases pass in each of them, where all do.
ALL = 100000
# What stands in for each: it says that so many cases passed, or does what the file of its name
# says.
PART = f"""#!/bin/sh
name="${{0##*/}} $1"
echo "$name" >>"$TOLD/calls"
[ ! -e "$TOLD/$name" ] || . "$TOLD/$name"
echo "a case of $name"
echo "{ALL} passed, 0 failed"
"""
# How a part may end, and how many cases passed and failed then.
ENDS = {
    "a failed case": (f"echo '{ALL} passed, 1 failed'; exit 1", (ALL, 1)),
    "fewer cases than there are": ("echo '0 passed, 0 failed'; exit 0", (0, 1)),
    "a failed case, and status 0": (f"echo '{ALL} passed, 1 failed'; exit 0", (ALL, 1)),
    "no failed case, and another status": (f"echo '{ALL} passed, 0 failed'; exit 3", (ALL, 1)),
    "no count": ("echo 'all is well'; exit 0", (0, 1)),
    "a count that is not the last line": (f"echo '{ALL} passed, 0 failed'; echo more; exit 0", (0, 1)),
    "nothing": ("exit 0", (0, 1)),
    "a signal": (f"echo '{ALL} passed, 0 failed'; kill -9 $$", (ALL, 1)),
}
# A compiler makes a program that prints what PRINTS says and ends with what ENDS says; cargo, go
# and pkg-config print what theirs say.
COMPILER = """#!/bin/sh
prints=$PRINTS ends="exit $ENDS"
case $* in
*faulty.c*) prints=$FINDS_FAULTS ends="exit 1" ;;
*race.cc*) prints=$FINDS_RACES ends="exit 1" ;;
*-fno-exceptions*) prints=$SAYS ends='kill -ABRT $$' ;;
*dropped.cc*) for line in $WARNS_OF_DROPPED; do echo "dropped.cc:$line:1: warning: nodiscard"; done ;;
*dropped.c*) for line in $TELLS_OF_DROPPED; do echo "dropped.c:$line: warning: unused-result"; done ;;
esac
case $* in *-fsyntax-only*) exit "$COMPILES" ;; esac
while [ "$1" != -o ]; do shift; done
printf '#!/bin/sh\\necho "%s"\\n%s\\n' "$prints" "$ends" >"$2"
chmod +x "$2"
exit "$COMPILES"
"""
# Over a library, which says its version in a file, cargo tests, runs an example or runs a program;
# without one it only checks and documents.
CARGO = f"""#!/bin/sh
ask="set TSCACHE_DIR to PREFIX/lib of an installed release, or to $ASKS scripts/build library"
library=${{TSCACHE_DIR:-$PKG_CONFIG_PATH}}/libtscache.a
[ "$TSCACHE_LINK" != dylib ] || library=$LD_LIBRARY_PATH/libtscache.so.0
case $*,$TSCACHE_DIR,$TSCACHE_LINK in
test*) printf '%b' "$CARGO"; exit "$CARGO_ENDS" ;;
fmt*) exit "$FORMATS" ;;
clippy*) exit "$LINTS" ;;
package*) printf '%b' "$PACKED"; exit 0 ;;
*lease_holder*) sed '1,/^In stripes:$/d' "{ROOT}/crates/example_lease_holder/stdout"; printf '%b' "$EXAMPLE"; exit "$EXAMPLE_ENDS" ;;
*figures*) yes "$FIGURES" | head -n 40; exit "$EXAMPLE_ENDS" ;;
*leased_store*) exit "$EXAMPLE_ENDS" ;;
run*)
    [ -e "$library" ] || library=$LD_LIBRARY_PATH/libtscache.so.0
    target=$(echo "$*" | sed 's/.*--target-dir //; s/ .*//')/debug
    mkdir -p "$target"
    [ -e "$target/linked" ] && [ -n "$LINKS_ONCE" ] || tr -d '\\0' <"$library" >"$target/linked"
    printf '#!/bin/sh\\ntr -d "\\\\0" <"$LD_LIBRARY_PATH/libtscache.so.0"\\n' >"$target/program"
    chmod +x "$target/program"
    cat "$target/linked"
    exit 0 ;;
*,shared) echo "TSCACHE_LINK is static or dylib"; exit "$WRONG_ENDS" ;;
*/none,*) echo "$ask"; exit "$WRONG_ENDS" ;;
build*) echo "$ask"; exit "$WRONG_ENDS" ;;
*) [ -n "$DOCS_RS" ] || echo "$ask"; exit "$CHECK_ENDS" ;;
esac
"""
# It looks at the code of an error, or at none.
RUSTDOC = """#!/bin/sh
cat "$4"
! [ -n "$LOOKS_AT_CODES" ] || ! grep -q E0382 "$4"
"""
TOOLS = {
    "gcc": COMPILER,
    "g++": COMPILER,
    "clang": COMPILER,
    "clang++": COMPILER,
    "cargo": CARGO,
    "rustdoc": RUSTDOC,
    "cargo-fmt": "#!/bin/sh\n",
    "cargo-clippy": "#!/bin/sh\n",
    "go": "#!/bin/sh\nprintf '%b' \"$TOLD_BY_GO\"\nexit \"$GO_ENDS\"\n",
    "pkg-config": '#!/bin/sh\nexit "$FINDS"\n',
    "nm": '#!/bin/sh\n[ "$1" != -D ] || NAME=$SHOWN\necho "00 T $NAME"\n',
    "readelf": "#!/bin/sh\nprintf '%b' \"$DYNAMIC\"\n",
}
# The lines of the program in C++ each of which drops an answer.
DROPPED_LINES = [number for number, line in enumerate(DROPPED.split("\n"), 1) if line.startswith("    ")]
SOUND = {
    "PRINTS": f"{ALL} passed, 0 failed",
    "ENDS": "0",
    "COMPILES": "0",
    "FINDS": "0",
    "NAME": "tsc_one",
    "SHOWN": "tsc_one@@TSCACHE_0.1",
    "DYNAMIC": "(NEEDED) [libc.so.6]\\n(SONAME) [libtscache.so.0]\\n",
    "FINDS_FAULTS": "heap-buffer-overflow, detected memory leaks, signed integer overflow",
    "TELLS_OF_DROPPED": " ".join(str(4 + it) for it in range(LOOKED_AT)),
    "WARNS_OF_DROPPED": " ".join(map(str, DROPPED_LINES)),
    "FINDS_RACES": "data race",
    "SAYS": "tscache: the handle names nothing of this kind",
}
# A header with one call, and the functions whose answers have to be looked at.
HEADER = "uint32_t tsc_one(void);\n" + "".join(f"TSC_NODISCARD\nstatic inline uint32_t tsc_{it}(int a)\n{{\n}}\n" for it in range(LOOKED_AT))
LIBRARY = {
    "no program in C or C++ compiles": {"COMPILES": "1"},
    "the programs in C print nothing": {"PRINTS": ""},
    "the programs in C pass nothing": {"PRINTS": "0 passed, 0 failed"},
    "the programs in C pass one case": {"PRINTS": "1 passed, 0 failed"},
    "the programs in C fail a case": {"PRINTS": f"{ALL} passed, 1 failed"},
    "the programs in C end with another status": {"ENDS": "1"},
    "pkg-config finds nothing": {"FINDS": "1"},
    "the compiler tells of one dropped answer alone": {"TELLS_OF_DROPPED": "4"},
    "the compiler for C++ warns of one alone": {"WARNS_OF_DROPPED": "4"},
    "no race is found": {"FINDS_RACES": ""},
    "a program without exceptions ends without a sentence": {"SAYS": ""},
    "sanitizers find no leak": {"FINDS_FAULTS": "heap-buffer-overflow, signed integer overflow"},
    "the library has another name than the header": {"NAME": "rattle_alloc"},
    "the shared library has another name than the header": {"SHOWN": "rattle_alloc@@TSCACHE_0.1"},
    "a name of the shared library has another version": {"SHOWN": "tsc_one@@TSCACHE_0.2"},
    "a name of the shared library has no version": {"SHOWN": "tsc_one"},
    "the shared library asks another one": {"DYNAMIC": SOUND["DYNAMIC"] + "(NEEDED) [libm.so.6]\\n"},
    "the shared library has another name": {"DYNAMIC": "(NEEDED) [libc.so.6]\\n(SONAME) [libtscache.so]\\n"},
    "the shared library's code is changed as it is loaded": {"DYNAMIC": SOUND["DYNAMIC"] + "(TEXTREL)\\n"},
}
# What cargo does where the crate for Rust is sound, and what it may do where that is not.
SOUND_RUST = {
    "CARGO": f"test result: ok. {ALL} passed; 0 failed\\n",
    "CARGO_ENDS": "0",
    "ASKS": "the OUT of",
    "CHECK_ENDS": "0",
    "WRONG_ENDS": "101",
    "EXAMPLE": "",
    "EXAMPLE_ENDS": "0",
    "FIGURES": 'tscache_adds_total{seat="0"} 3',
    "FORMATS": "0",
    "LINTS": "0",
    "PACKED": "",
    "LINKS_ONCE": "",
    "LOOKS_AT_CODES": "1",
}
RUST = {
    "the crate doesn't compile": {"CARGO": "error: could not compile\\n", "CARGO_ENDS": "101"},
    "the crate doesn't compile, and a test of it passes": {"CARGO_ENDS": "101"},
    "the tests print nothing": {"CARGO": ""},
    "the tests pass nothing": {"CARGO": "test result: ok. 0 passed; 0 failed\\n"},
    "one test passes": {"CARGO": "test result: ok. 1 passed; 0 failed\\n"},
    "a test fails": {"CARGO": f"test result: FAILED. {ALL} passed; 1 failed\\n"},
    "the crate is not checked without a library": {"CHECK_ENDS": "101"},
    "a program is built without a library": {"WRONG_ENDS": "0"},
    "the crate doesn't say what is missing": {"ASKS": "some of"},
    "an example doesn't compile": {"EXAMPLE_ENDS": "101"},
    "an example prints something else": {"EXAMPLE": "more\\n"},
    "figures have another form": {"FIGURES": "tscache_pages is 1"},
    "figures say something else": {"FIGURES": 'tscache_adds_total{seat="0"} 4'},
    "the crate is formatted otherwise": {"FORMATS": "1"},
    "clippy has something to say": {"LINTS": "101"},
    "something is missing where it is packed": {"PACKED": "warning: manifest has no description\\n"},
    "a program keeps the library that it had": {"LINKS_ONCE": "1"},
    "the code of an error is passed over": {"LOOKS_AT_CODES": ""},
}
# A source of the crate, and such ones as don't say why an answer is looked at.
ANSWER = '#[must_use = "it is all that there is"]\npub fn call%d() -> u8 {\n    1\n}\n\n'
ANSWERS = "".join(ANSWER % number for number in range(100))
SAYS_NOTHING = {
    "an answer has no sentence": ANSWERS + "pub fn call() -> u8 {\n    1\n}\n",
    "an answer of a method has none": ANSWERS + "impl A {\n    pub fn call(&self) -> u8 {\n        1\n    }\n}\n",
    "the sentence is a word": ANSWERS + '#[must_use = "so"]\npub fn call() -> u8 {\n    1\n}\n',
    "the crate has no answers": "",
}
# How `go` may fail the tests of the package for Go.
GO = {
    "the package doesn't compile": {"TOLD_BY_GO": "FAIL\\n", "GO_ENDS": "1"},
    "the tests print nothing": {"TOLD_BY_GO": "", "GO_ENDS": "0"},
    "one test passes": {"TOLD_BY_GO": "--- PASS: Test\\n", "GO_ENDS": "0"},
}
# A program of tests with one test, which asks for memory once, and once more where that is refused.
ASKS = """#include <stdio.h>
#include <stdlib.h>
#include <string.h>
int main(int count, char **words) {
    if (count > 1 && !strcmp(words[1], "--list")) return puts("asks: test") < 0;
    void *volatile block = malloc(5000);
    if (!block) block = malloc(5000);
    free(block);
    return block ? 0 : puts("error: NoMemory") > 0;
}
"""
# What is asked of it, and whether that is so.
GROWTHS = {
    "asks": True,
    "asks+": True,
    "asks=1": True,
    "asks=0": False,
    "asks#1": True,
    "asks#2": False,
    "asks=1/5000": True,
    "asks=1/4999": False,
    "asks#1/5000/5100": True,
    "asks#1/5000/4999": False,
    "asks#1/4999/5100": False,
}

# What stands in for a release of the store, for what builds it, and for the tests of its checker.
PRINTED = """import os, sys
kind = {kind}
print(os.environ[kind])
sys.exit(int(os.environ[kind + "_ENDS"]))
"""
ROCKS_STORE = {
    "docs/STORE.md": "```sh\ncmake --build PREFIX\n```\n",
    "scripts/build": '#!/bin/sh\nmkdir "$5" && tar -C "$RELEASE" -czf "$5/tscache-1.tar.gz" tscache-1\n',
    "examples/rocks_store/test_check_history": PRINTED.format(kind='"CHECKER"'),
}
RELEASE = {
    "install.sh": '#!/bin/sh\nmkdir "$1" && cp -r "${0%/*}/share" "$1"\n',
    "share/tscache/examples/rocks_store/torture": PRINTED.format(
        kind='"KILLS" if "--every" in sys.argv else "FLAWS" if "--flaws" in sys.argv else "NO_SYNC"'
    ),
}
CMAKE = '#!/bin/sh\necho "$CMAKE"\n[ -z "$BUILDS" ] || echo >rocks_store\nexit "$CMAKE_ENDS"\n'
SOUND_STORE = {
    "CHECKER": f"{ALL} passed, 0 failed",
    "CHECKER_ENDS": "0",
    "COMPILES": "0",
    "PRINTS": "",
    "ENDS": "0",
    "CMAKE": "built",
    "CMAKE_ENDS": "0",
    "BUILDS": "1",
    "KILLS": "12 passed, 0 failed",
    "KILLS_ENDS": "0",
    "FLAWS": "8 passed, 0 failed",
    "FLAWS_ENDS": "0",
    "NO_SYNC": "3 passed, 1 failed",
    "NO_SYNC_ENDS": "1",
}
STORE = {
    "a test of the checker fails": {"CHECKER": f"{ALL} passed, 1 failed", "CHECKER_ENDS": "1"},
    "the checker's tests print nothing": {"CHECKER": ""},
    "no release is made": {"RELEASE": "/nowhere"},
    "the store isn't built": {"CMAKE_ENDS": "1"},
    "the store is built with a warning": {"CMAKE": "warning: unused"},
    "there is no store": {"BUILDS": ""},
    "a store that is killed loses something": {"KILLS": "11 passed, 1 failed", "KILLS_ENDS": "1"},
    "there are fewer kills": {"KILLS": "11 passed, 0 failed"},
    "a flaw is not found": {"FLAWS": "7 passed, 1 failed", "FLAWS_ENDS": "1"},
    "there are fewer flaws": {"FLAWS": "7 passed, 0 failed"},
    "a store that doesn't sync loses nothing": {"NO_SYNC": "4 passed, 0 failed", "NO_SYNC_ENDS": "0"},
    "a store that doesn't sync fails otherwise": {"NO_SYNC": "2 passed, 2 failed"},
}


def script(room, files=None):
    """Returns where scripts stand in a repository of its own, with these files."""
    shutil.copytree(f"{ROOT}/scripts", f"{room}/scripts", copy_function=os.link)
    for path, text in (files or {}).items():
        if os.path.exists(f"{room}/{path}"):
            os.remove(f"{room}/{path}")
        command_of(f"{room}/{path}", text)
    return f"{room}/scripts"


def is_well(*words, **env):
    """Whether a part says that all is well."""
    status, told = outcome(*words, env={**os.environ, **env}, seconds=300)
    return status == 0 and re.fullmatch(r"[1-9]\d* passed, 0 failed", told.rstrip().rpartition("\n")[2]) is not None


class Gate:
    """A copy of `.ci/run` that meets stand-ins."""

    def __init__(self, room):
        self.room = room

    def run(self, name="", text="", tools=None):
        """Returns what the gate prints and its status, where this part does so, and which parts
        were called."""
        root, told, path = f"{self.room}/root", f"{self.room}/told", f"{self.room}/bin"
        shutil.rmtree(self.room, ignore_errors=True)
        command_of(f"{root}/.ci/run", text_of(".ci/run"))
        command_of(f"{path}/rt", PART)
        for kind in {it.split()[0] for it in PARTS} | {"build"}:
            command_of(f"{root}/scripts/{kind}", PART)
        for tool in OWN_TOOLS:
            os.symlink(shutil.which(tool), f"{path}/{tool}")
        usual = dict.fromkeys(("apt-get", "c++", *NEEDED), "exit 0")
        for tool, does in {**usual, **(tools or {})}.items():
            if does is not None:
                command_of(f"{path}/{tool}", f"#!/bin/sh\n{does}\n")
        write(f"{told}/calls", "")
        if name:
            write(f"{told}/{name}", text)
        status, output = outcome(f"{root}/.ci/run", env={**os.environ, "PATH": path, "TOLD": told}, seconds=60)
        with open(f"{told}/calls", encoding="utf-8") as file:
            calls = [line for line in file.read().splitlines() if line in PARTS]
        return output.splitlines(), status, calls


def try_gate(cases, room):
    gate, well = Gate(room), f"{ALL * len(PARTS)} passed, 0 failed"
    lines, status, calls = gate.run()
    cases.expect("all parts pass", (lines[-1], status, calls), (well, 0, PARTS))
    for it, missing, installed in MISSING:
        for what, tools, says in (
            ("is there", {}, (False, False)),
            ("is installed", {**missing, "apt-get": installed.format(room=room)}, (True, False)),
            ("can't be installed", {**missing, "apt-get": "exit 100"}, (True, True)),
            ("isn't there once it is installed", missing, (True, True)),
        ):
            lines, status, _ = gate.run(tools=tools)
            told = tuple(any(word in line for line in lines) for word in ("installing", "can't be installed"))
            cases.expect(f"{it} {what}", (told, lines[-1], status), (says, well, 0))
    not_run = "not run: the package for Go: go is missing"
    lines, status, _ = gate.run("test library", f"echo '{not_run}'\n")
    cases.expect("what is not run is named at the end", (lines[-2:], status), ([not_run, well], 0))
    for part, fault in (("measure gate", "rt: FAILED: tsc_page"), ("check all", "FAILED: a link: False")):
        lines, *_ = gate.run(part, f"echo '{fault}'\necho '3 passed, 1 failed'\nexit 1\n")
        cases.expect(f"what failed in {part} is named at the end", lines[-2].removeprefix("scripts/"), f"{part}: {fault}")
    for part in PARTS:
        for what, (text, (passed, failed)) in list(ENDS.items())[: len(ENDS) if part == "measure gate" else 2]:
            lines, *others = gate.run(part, text)
            wanted = [f"{ALL * (len(PARTS) - 1) + passed} passed, {failed} failed", 1, PARTS]
            cases.expect(f"{part} ends with {what}", [lines[-1], *others], wanted)


def try_measure(cases, room):
    """The gate's watcher: it passes on what the gate prints, with its status, and leaves a table."""
    said = "a case\n3 passed, 1 failed\n"
    command_of(f"{room}/bin/rt", f"#!/bin/sh\nprintf '%s' '{said}'\nexit 3\n")
    env = {**os.environ, "PATH": f"{room}/bin:{os.environ['PATH']}"}
    words = [f"{ROOT}/scripts/measure", "gate", "--table", f"{room}/table", "rt", "ci"]
    got = outcome(*words, env=env, stderr=subprocess.DEVNULL)
    cases.expect("measure gate passes on what is printed, and the status", got, (3, said))
    text = text_at(f"{room}/table") if os.path.exists(f"{room}/table") else ""
    is_table = "by `rt ci`:" in text and "| `tsc_time` | 0.0 |" in text and "| all | 0.0 |" in text
    cases.expect("measure gate leaves a table", is_table, told=text)


def is_gone(pid):
    """Says whether a process ends within a second."""
    for _ in range(100):
        if not os.path.exists(f"/proc/{pid}") or " Z " in text_at(f"/proc/{pid}/stat"):
            return True
        time.sleep(0.01)
    return False


def try_frame(cases, room):
    """What the frame makes of cases, of words, and of parts that fail."""
    def counted(judge):
        own = Cases(False)
        with contextlib.redirect_stdout(io.StringIO()):
            judge(own)
        return own.passed, own.failed

    for what, (text, wanted) in ENDS.items():
        got = counted(lambda own: own.take(what, outcome("sh", "-c", text), ALL))
        cases.expect(f"a program of cases ends with {what}", got, wanted)
    cases.expect("nothing is looked at", counted(lambda own: own.looked_at([], "things")), (0, 1))
    cases.expect("another value than is wanted", counted(lambda own: own.expect("it", 1, 2)), (0, 1))
    write(f"{room}/child", "")
    slow = outcome("sh", "-c", f"sleep 60 & echo $! >{room}/child; wait", seconds=1)
    cases.expect("a command that takes too long has no status", slow[0], None)
    cases.expect("nor does what it started run on", is_gone(int(text_at(f"{room}/child"))))
    scripts = f"{ROOT}/scripts"
    for kind in ("check", "build", "test", "refuse", "measure", "draw"):
        cases.expect(f"{kind} --help", outcome(f"{scripts}/{kind}", "--help")[0], 0)
        for words in ([], ["nothing"], ["--nothing"]):
            cases.expect(f"{kind} {words}", outcome(f"{scripts}/{kind}", *words)[0], 2)
        for part in sorted(it[:-3].replace("_", "-") for it in os.listdir(f"{scripts}/parts/{kind}") if it.endswith(".py")):
            cases.expect(f"{kind} {part} --help", outcome(f"{scripts}/{kind}", part, "--help")[0], 0)
            cases.expect(f"{kind} {part} --nothing", outcome(f"{scripts}/{kind}", part, "--nothing")[0], 2)
    cases.expect("no script left a compiled one", outcome("find", scripts, "-name", "__pycache__"), (0, ""))
    cases.expect("check all: a part fails", is_well(f"{script(room)}/check", "all"), False)


def try_library(cases, room):
    """The library for C, and what stands on it, with compilers that only seem to be some."""
    tools, built = f"{room}/tools", f"{room}/built"
    for name, text in TOOLS.items():
        command_of(f"{tools}/{name}", text)
    for name, text in {
        "tscache.pc": "Description: built without proofs\n",
        "tscache.hpp": "#ifndef TSCACHE_HPP\n",
        "libtscache.a": "0.1.0\0 20\n",
        "libtscache.so.0": "0.1.0\0 20\n",
    }.items():
        write(f"{built}/library/{name}", text)
    os.symlink("libtscache.so.0", f"{built}/library/libtscache.so")
    stored = "crates/example_lease_holder/stdout"
    source = "bindings/rust/src/lib.rs"
    files = {"VERSION": "0.1.0\n", "include/tscache.h": HEADER, "docs/EMBEDDING.md": "```c\n;\n```\n" * 2, stored: text_of(stored), source: ANSWERS}
    scripts = script(f"{room}/root", files)
    words = [f"{scripts}/test", "library", "--built", built]
    # (without cargo and go, which have cases of their own)
    bare = f"{room}/bare"
    shutil.copytree(tools, bare, ignore=shutil.ignore_patterns("cargo*", "rustdoc", "go"))
    os.symlink(sys.executable, f"{bare}/python3")
    for tool in ("cat", "chmod", "env", "setarch", "sh"):
        os.symlink(shutil.which(tool), f"{bare}/{tool}")
    for what, changed in {"all is sound": {}, **LIBRARY}.items():
        cases.expect(f"test library: {what}", is_well(*words, **{**SOUND, **changed, "PATH": bare}), not changed)
    path = {"PATH": f"{tools}:{os.environ['PATH']}"}
    for language in ("cargo", "go"):
        shutil.copy(f"{tools}/{language}", bare)
        broken = {**SOUND, **SOUND_RUST, **GO["the package doesn't compile"], "CARGO_ENDS": "1", "PATH": bare}
        cases.expect(f"test library: {language} fails", is_well(*words, **broken), False)
        os.remove(f"{bare}/{language}")
    for what, said in GO.items():
        well = is_well(f"{ROOT}/scripts/test", "go", "--built", built, **path, **said)
        cases.expect(f"test go: {what}", well, False)
    for what, changed in {"all is sound": {}, **RUST}.items():
        well = is_well(f"{scripts}/test", "rust", "--built", built, **path, **{**SOUND_RUST, **changed})
        cases.expect(f"test rust: {what}", well, not changed)
    for what, text in SAYS_NOTHING.items():
        scripts = script(f"{room}/{what}", {**files, source: text})
        well = is_well(f"{scripts}/test", "rust", "--built", built, **path, **SOUND_RUST)
        cases.expect(f"test rust: {what}", well, False)


def try_store(cases, room):
    """The store over RocksDB, with a release and tools that only seem to be some."""
    scripts, tools = script(f"{room}/root", ROCKS_STORE), f"{room}/tools"
    git = ["git", "-C", f"{room}/root", "-c", "user.name=it", "-c", "user.email=it@localhost"]
    for words in (["init", "-q"], ["add", "."], ["commit", "-qm", "all"]):
        cases.expect(f"git {words[0]}", outcome(*git, *words)[0], 0)
    for name, text in RELEASE.items():
        command_of(f"{room}/tscache-1/{name}", text)
    for name in ("tscache", "library"):
        write(f"{room}/built/{name}", "")
    for name, text in {"c++": COMPILER, "cmake": CMAKE}.items():
        command_of(f"{tools}/{name}", text)
    words = [f"{scripts}/test", "store", "--built", f"{room}/built"]
    sound = {**SOUND_STORE, "RELEASE": room, "PATH": f"{tools}:{os.environ['PATH']}"}
    for what, changed in {"all is sound": {}, **STORE}.items():
        cases.expect(f"test store: {what}", is_well(*words, **{**sound, **changed}), not changed)
    status, told = outcome(*words, env={**os.environ, **sound, "COMPILES": "1"})
    got = status, told.count("not run: "), told.splitlines()[-1]
    cases.expect("test store: RocksDB is missing", got, (0, 1, f"{ALL} passed, 0 failed"), told)


# A repository of one crate, whose documents name what is there.
CODE = "```rust\nlet a = 1;\n```\n"
CRATES = {
    "crates.txt": "low:\ntsc_cache: low\n",
    "scripts/tests.txt": "test low one::shows\n",
    "crates/low/src/one.rt": "fn shows() {}\n",
    "crates/tsc_cache/src/lib.rt": "use low::it;\n",
    "docs/PROOFS.md": """<!-- gate: begin -->
Measured on 2026-01-02 at commit `abc` by `rt ci`:
60 minutes by the clock on 2 processors, 120 processor minutes.

| Crate | Proof | Tests | Edits | Together |
|---|---|---|---|---|
| `low` | 1.0 | 0.0 | 0.0 | 1.0 |
| `tsc_cache` | 1.0 | 0.0 | 0.0 | 1.0 |
| all | 2.0 | 0.0 | 0.0 | 2.0 |
<!-- gate: end -->
""",
}
# Two lemmas of which the first one has the words of the third, in another sense.
CHAIN = "one : (a b c d e : ℕ) → a ≡ b → b ≡ c → c ≡ d → d ≡ e → a ≡ e → a ≡ d\none = chain\n"
OF_KEYS = " : (a b c d e : Key) → a ≡ b → b ≡ c → c ≡ d → d ≡ e → a ≡ e → d ≡ a\n"
LEMMAS = {
    "crates.txt": "low:\n",
    "crates/low/src/lib.rt": "",
    "crates/low/proofs/One.antt": f"use Rattle.low.specs.One.{{Key}}\n\n{CHAIN}three{OF_KEYS}",
    "crates/low/proofs/Two.antt": f"use Rattle.low.specs.Two.{{Key}}\n\n{CHAIN.replace('a ≡ d', 'a ≡ c', 1)}three{OF_KEYS}",
}
# A public call whose comment has an example.
SHOWN_CALL = "/// It is.\n///\n/// ```\n/// assert!(rt; is_it());\n/// ```\npub fn is_it() -> bool"
EXAMPLES = {
    "bindings/go/cache.go": "\nfunc (c *Cache) Add() {\n",
    "bindings/go/cache_test.go": "\nfunc ExampleCache_Add() {\n",
    "bindings/rust/src/lib.rs": "/// ```\n/// it();\n/// ```\npub fn it() {",
    "crates/mvcc_range/src/range.rt": SHOWN_CALL,
    "crates/example_hand_over/src/lease.rt": "let a = 1;",
    "crates/timestamp_cache/src/writes.rt": SHOWN_CALL,
    "crates/tsc_striped_leases/src/lib.rt": SHOWN_CALL,
    "bindings/rust/examples/leased_store.rs": "",
    "README.md": CODE,
    "docs/EMBEDDING.md": CODE,
}
RULES = {
    "crates.txt": "tsc_cache:\n",
    "README.md": """# It

## What is proved

- **It holds.** As the rule says
  ([A rule](docs/MODEL.md#the-rules)), and so on.

| Definitions that say what is meant | Lines |
|---|---|
| the cache | 2 |
""" + "| more | 0 |\n" * (len(GROUPS) - 1),
    "crates/tsc_cache/specs/Rule.antt": "abbrev pub holds : Bool\n-- so\n",
    "crates/tsc_cache/src/laws.rt": "pub fn law()\n",
    "crates/tsc_cache/src/one.rt": """ghost use Rattle.tsc_cache.specs.Rule.{holds};
pub fn call()
    ensures kept { holds }
{
}
""",
    "crates/tsc_cache/src/tests.rt": "fn shows() {}\n",
    "crates/tsc_cache/must-fail/wrong.edit": "file: src/one.rt\n",
    "docs/MODEL.md": """# The model

## The rules

- **A rule.** It holds.
  - *Example:* it does.
  - *Read* `tsc_cache/Rule` `holds`; *law* `law`; *code* `call`.

| Rule | Definition | Law | Code | Edit | Test |
|---|---|---|---|---|---|
| A rule | `tsc_cache/Rule` `holds` | `tsc_cache` `law` | `tsc_cache/one` `call` | `tsc_cache` `wrong` | `tsc_cache/tests` `shows`, `scripts/check all` |
""",
    "docs/PROOFS.md": """| What | Files in order, with their lines | What to look for |
|---|---|---|
| all | `tsc_cache/Rule` 2 | it |

| Rule | Promise | Contract |
|---|---|---|
| A rule | It is kept | `tsc_cache` `call` (`kept`) |

| What | Shown by |
|---|---|
| it | `tsc_cache/tests` `shows` |
""",
    "docs/GLOSSARY.md": """| Our word | In the field, or in plain words | Where it lives |
|---|---|---|
| call | function | `tsc_cache/src/one.rt` `call` |
""",
}
SENTENCE = "A page " + "has keys and " * 5
DOCUMENTS = {
    "docs/A.md": "# A\n\nA page has keys. [B](B.md#two-words) has values.\n\n`crates/a/out` is built by `scripts/check all`.\n",
    "docs/B.md": "# Two words\n",
    "CHANGELOG.md": "# Still to be rewritten\n",
}
EDITS = {
    "crates.txt": "low:\n",
    "crates/low/src/one.rt": "let a = 1;\n",
    "retired-edits/low/wrong.edit": "file: src/one.rt\nold: a = 1\nnew: a = 2\n",
}
HOUSE = {
    "crates.txt": "low:\n",
    "crates/low/src/one.rt": "/// It.\npub fn call(a: u8)\n    ensures { a }\n{\n}\n",
    "crates/low/specs/Rule.antt": "-- it\n",
    "crates/low/proofs/Lemmas.antt": "-- Lemmas.\n",
}
LIVES = {
    "crates.txt": "low:\n",
    "docs/LIVES.md": "| `low` | `one.rt` | `call` | it calls |\n| `low` | `one.rt` | `A::it` | it is called |\n",
    "crates/low/src/one.rt": "pub fn call() {\n    it();\n}\n\nimpl A {\n    fn it() {\n    }\n}\n",
}
WIDE = "a" * 100
# What each check looks at, and how it is changed, so that something isn't there any more, or stands
# there twice: a file, what stands in it, and what stands there instead. Without that a file is
# gone.
CHECKS = {
    "crates": (CRATES, {
        "a library is never named": ("crates/tsc_cache/src/lib.rt", "low", "other"),
        "there is no crate": ("crates.txt", "low:\ntsc_cache: low", "# none"),
        "a crate has no line": ("crates.txt", "low:\n", ""),
        "a line has no crate": ("crates.txt", "low:\n", "low:\nhigh:\n"),
        "the table of the gate lacks a crate": ("docs/PROOFS.md", "| `low` | 1.0 | 0.0 | 0.0 | 1.0 |\n", ""),
        "the table of the gate has another crate": ("docs/PROOFS.md", "| all", "| `old` | 1.0 | 0.0 | 0.0 | 1.0 |\n| all"),
        "the table of the gate has another order": ("crates.txt", "low:\ntsc_cache: low", "tsc_cache: low\nlow:"),
        "the table of the gate has no day": ("docs/PROOFS.md", "Measured on", "Measured at"),
        "a test that a script calls is not there": ("crates/low/src/one.rt", "shows", "showed"),
    }),
    "examples": (EXAMPLES, {
        "a call has no example": ("crates/mvcc_range/src/range.rt", "/// ```\n", ""),
        "there is no call": ("crates/timestamp_cache/src/writes.rt", "pub fn", "fn"),
        "a call of Rust has no example": ("bindings/rust/src/lib.rs", "```", ""),
        "there is no call of Rust": ("bindings/rust/src/lib.rs", "pub fn", "fn"),
        "a call of Go has no example": ("bindings/go/cache_test.go", "_Add", "_Adds"),
        "there is no call of Go": ("bindings/go/cache.go", "Add", "add"),
        "README has no code": ("README.md", CODE, ""),
        "README has other code": ("README.md", "1", "2"),
        "EMBEDDING has no code": ("docs/EMBEDDING.md", CODE, ""),
        "EMBEDDING has other code": ("docs/EMBEDDING.md", "1", "2"),
    }),
    "lemmas": (LEMMAS, {
        "a lemma is stated twice": ("crates/low/proofs/Two.antt", "a ≡ c", "a ≡ d"),
        "a lemma is stated twice in one file": ("crates/low/proofs/One.antt", "\n\n", f"\n\n{CHAIN.replace('one', 'other')}"),
        "a lemma is stated twice by other imports": ("crates/low/proofs/Two.antt", "low.specs.Two.{Key}", "low.specs.One.{Key}"),
        "there are no lemmas": ("crates.txt", "low:\n", "test_low:\n"),
    }),
    "rules": (RULES, {
        "a definition is not there": ("crates/tsc_cache/specs/Rule.antt", "holds", "held"),
        "a law is not there": ("crates/tsc_cache/src/laws.rt", "fn law", "fn other"),
        "code is not there": ("docs/MODEL.md", "`call`", "`called`"),
        "an edit is not there": ("docs/MODEL.md", "`wrong`", "`wrong` `right`"),
        "a test is not there": ("docs/MODEL.md", "`shows`", "`showed`"),
        "a part of a script is not there": ("docs/MODEL.md", "check all", "check some"),
        "an edit is in no rule": ("docs/MODEL.md", "`tsc_cache` `wrong`", "none can"),
        "a rule has no row": ("docs/MODEL.md", "| A rule |", "| Another rule |"),
        "a row has no rule": ("docs/MODEL.md", "- **A rule.**", "- A rule."),
        "a rule stands twice": ("docs/MODEL.md", "- **A rule.** It holds.", "- **A rule.** It holds.\n- **A rule.** It holds."),
        "a row lacks a cell": ("docs/MODEL.md", " | `tsc_cache/tests` `shows`, `scripts/check all` |", " |"),
        "a rule has no example": ("docs/MODEL.md", "*Example:*", "As"),
        "an example names another definition": ("docs/MODEL.md", "`holds`; *law*", "`kept`; *law*"),
        "a rule has no promise": ("docs/PROOFS.md", "| A rule |", "| Another rule |"),
        "a contract is not there": ("docs/PROOFS.md", "`call` (", "`called` ("),
        "a clause is not there": ("docs/PROOFS.md", "`kept`", "`held`"),
        "what shows a fact is not there": ("docs/PROOFS.md", "`shows`", "`showed`"),
        "a definition to be read is longer": ("docs/PROOFS.md", "`tsc_cache/Rule` 2", "`tsc_cache/Rule` 9"),
        "a definition to be read is not listed": ("docs/PROOFS.md", "`tsc_cache/Rule` 2", "none"),
        "a claim rests on no rule": ("README.md", "[A rule]", "A rule: "),
        "a claim rests on what is no rule": ("README.md", "[A rule]", "[Another rule]"),
        "a claim names another heading": ("README.md", "#the-rules", "#the-model"),
        "there are no claims": ("README.md", "- **It", "- It"),
        "more is to be read than README says": ("README.md", "the cache | 2", "the cache | 9"),
        "a word lives nowhere": ("docs/GLOSSARY.md", "`call`", "`called`"),
        "there are no documents": ("docs/MODEL.md", None, None),
    }),
    "prose": (DOCUMENTS, {
        "a line is too wide": ("docs/A.md", "A page", f"`{WIDE}`\nA page"),
        "a code block is too wide": ("docs/A.md", "A page", f"```\n{WIDE}a\n```\n\nA page"),
        "a sentence is too long": ("docs/A.md", "A page has keys.", "A page has keys.\n" * 9 + f"{SENTENCE}\n{SENTENCE}values.\n"),
        "a sentence in a table is too long": ("docs/A.md", "[B]", f"\n\n| a | {SENTENCE * 2} |\n\n[B]"),
        "sentences are too long on average": ("docs/A.md", DOCUMENTS["docs/A.md"], f"{SENTENCE}\nvalues too, and gaps.\n"),
        "a word is avoided": ("docs/A.md", "A page has keys.", "A page is told its keys."),
        "a link leads to no file": ("docs/A.md", "(B.md#", "(C.md#"),
        "a link leads to no heading": ("docs/A.md", "#two-words", "#three-words"),
        "a path leads nowhere": ("docs/A.md", "`crates/a/out`", "`docs/C.md`"),
        "a command has no such part": ("docs/A.md", "check all", "check some"),
        "an exempt document has a link that leads nowhere": ("CHANGELOG.md", "Still", "[Still](C.md)"),
        "an exempt document is gone": ("CHANGELOG.md", None, None),
    }),
    "edits": (EDITS, {
        "its text is gone": ("crates/low/src/one.rt", "a = 1", "a = 3"),
        "its text stands there twice": ("crates/low/src/one.rt", "a = 1;", "a = 1; a = 1;"),
        "its file is gone": ("crates/low/src/one.rt", None, None),
        "it has no pair of lines": ("retired-edits/low/wrong.edit", "old: a = 1\nnew: a = 2\n", ""),
        "there is no edit": ("retired-edits/low/wrong.edit", None, None),
    }),
    "house": (HOUSE, {
        "a comment is too wide": ("crates/low/src/one.rt", "It.", WIDE),
        "a clause is too wide": ("crates/low/src/one.rt", "{ a }", f"{{ {WIDE} }}"),
        "a comment of a definition is too wide": ("crates/low/specs/Rule.antt", "it", WIDE),
        "many lines are too wide": ("crates/low/src/one.rt", "{\n}", f"{{\n    {WIDE}\n}}"),
        "many lines of proofs are too wide": ("crates/low/proofs/Lemmas.antt", "Lemmas.\n", f"Lemmas.\n{WIDE}a\n"),
        "a proof file has no head": ("crates/low/proofs/Lemmas.antt", "-- Lemmas.", "lemma"),
        "a function has many clauses": ("crates/low/src/one.rt", "    ensures { a }\n", "    ensures { a }\n" * 7),
        "a function has many parameters": ("crates/low/src/one.rt", "a: u8", ", ".join(f"{it}: u8" for it in "abcdefgh")),
        "there is no function": ("crates/low/src/one.rt", None, None),
    }),
    "lives": (LIVES, {
        "a function is not there": ("crates/low/src/one.rt", "fn it()", "fn that()"),
        "a function is called by none above": ("crates/low/src/one.rt", "it();", "that();"),
        "a file is not there": ("crates/low/src/one.rt", None, None),
        "there is no row": ("docs/LIVES.md", "`low`", "low"),
    }),
}
# What `scripts/check definitions` says of a changed repository.
NEW_LAW = "pub record Always : Type 0 where\n  pub it : (a : Bool) → a ≡ a\n"
DEFINITIONS = {
    "a file is in no group": ({
        "crates.txt": "low:\ntsc_cache: low\n",
        "crates/low/specs/Rule.antt": "abbrev pub kept : Bool\n",
        "crates/tsc_cache/src/two.rt": "ghost use Rattle.low.specs.Rule.{kept as held};\npub fn it()\n    requires { held }\n{}\n",
    }, "low/Rule is in no group and not private"),
    "a law is not proved": ({"crates/tsc_cache/specs/Laws.antt": NEW_LAW}, "no law of the code says Always"),
    "a law elsewhere is not proved": ({
        "crates/tsc_cache/specs/Rule.antt": "abbrev pub All : Type 0\nAll = (a : Bool) → a ≡ a\n",
    }, "no law of the code says All"),
    "a private file is not cited": ({}, "tsc_check/CheckParts is private, and no public contract cites it alone"),
}


def try_checks(cases, room):
    """What is written, and what the checks say of it."""
    for name, (files, changes) in CHECKS.items():
        for what, change in {"all is there": None, **changes}.items():
            changed = dict(files)
            if change:
                path, old, new = change
                text = changed.pop(path)
                if old is not None:
                    cases.names_all = False
                    cases.expect(f"check {name}: {what}: {path} has {old!r}", old in text)
                    cases.names_all = True
                    changed[path] = text.replace(old, new)
            scripts = script(f"{room}/{name}/{what}", {"scripts/tests.txt": "", **changed})
            # (no command that the scripts themselves name is missing there)
            well = is_well(f"{scripts}/check", name)
            cases.expect(f"check {name}: {what}", well, not change)
    for what, (files, says) in DEFINITIONS.items():
        scripts = script(f"{room}/definitions/{what}", {**RULES, **files})
        told = outcome(f"{scripts}/check", "definitions")[1]
        cases.expect(f"check definitions: {what}", says in told, told=told)


def try_pictures(cases, _):
    """The pictures in the documents are what is drawn today."""
    for path, text in drawn().items():
        cases.expect(f"the picture {path}", text == text_of(path))


def try_programs(cases, room):
    """Programs that aren't there, or that do nothing, and say so or not; and tools that do nothing.
    """
    parts = [("refuse", "thread"), ("refuse", "growth", "all"), ("refuse", "stop"), ("measure", "steps"), ("test", "program")]
    kinds = {"nothing": "#!/bin/sh\n", "fails": "#!/bin/sh\nexit 4\n", "missing": None}
    command_of(f"{room}/no kit/rt", "#!/bin/sh\nexit 1\n")
    no_kit = {"PATH": f"{room}/no kit:{os.environ['PATH']}"}
    for kind, text in kinds.items():
        for crate in ("tscache", "test_caches", "test_ranges", "test_shared", "test_striped", "test_traces") if text else ():
            command_of(f"{room}/{kind}/{crate}", text)
        for command, part, *words in parts if kind != "fails" else parts[:-1]:
            words = [f"{ROOT}/scripts/{command}", part, "--unproved", "--built", f"{room}/{kind}", *words]
            cases.expect(f"{command} {part}: a program {kind}", is_well(*words, **no_kit), False)
    for command, part in (("refuse", "handle"), ("test", "examples")):
        cases.expect(f"{command} {part}: a kit that fails", is_well(f"{ROOT}/scripts/{command}", part, **no_kit), False)
    for tool, command, part in (("cc", "refuse", "thread"), ("cc", "refuse", "growth"), ("cc", "refuse", "stop"), ("valgrind", "measure", "steps")):
        for what, text in (("fails", "exit 1"), ("does nothing", "exit 0")):
            command_of(f"{room}/{tool} {what}/{tool}", f"#!/bin/sh\n{text}\n")
            words = [f"{ROOT}/scripts/{command}", part, "--unproved", "--built", f"{room}/nothing"]
            path = f"{room}/{tool} {what}:{os.environ['PATH']}"
            cases.expect(f"{command} {part}: {tool} {what}", is_well(*words, PATH=path), False)


def try_growths(cases, room):
    """Growths, and their bytes, of a program that asks for 5,000."""
    write(f"{room}/asks.c", ASKS)
    cases.expect("a program that asks", outcome("cc", "-O0", "-o", f"{room}/none", f"{room}/asks.c")[0], 0)
    for words, well in GROWTHS.items():
        got = is_well(f"{ROOT}/scripts/refuse", "growth", "--built", room, "tests", "none", words)
        cases.expect(f"refuse growth: {words} of one growth of 5,000 bytes, which is made good", got, well)


# A call of each part that needs the toolchain.
CALLS = "draw inside examples/two_readers.json; measure commands; measure forms; measure gate; measure library"
CALLS += "; measure library --unproved; measure modules tsc_time; refuse growth; refuse growth all --unproved"
CALLS += "; refuse handle; refuse stop; refuse thread; test examples; test first-answer; test library"
CALLS += "; test library --unproved; test program; test program --unproved; test races; test release"
CALLS += "; build unproved tscache OUT; install --unproved OUT"
CALLS = ["../.ci/run", *CALLS.split("; ")]
CALLS += [f"build {it}{how} OUT" for it in ("library", "program", "release") for how in ("", " --unproved")]


def try_without_rt(cases, room):
    """Each call says once that the toolchain is missing, and makes nothing."""
    os.makedirs(f"{room}/all")
    for folder in os.environ["PATH"].split(":"):
        for it in os.listdir(folder) if os.path.isdir(folder) else []:
            if it != "rt" and not os.path.lexists(f"{room}/all/{it}"):
                os.symlink(f"{folder}/{it}", f"{room}/all/{it}")
    env = {it: text for it, text in os.environ.items() if it not in ("PROGRAM", "TESTS", "BUILT")}
    for words in CALLS:
        status, told = outcome(*f"{ROOT}/scripts/{words}".replace("OUT", f"{room}/out").split(), env={**env, "PATH": f"{room}/all"})
        got = status != 0, told.count(NO_RT), "Traceback" in told or "not found" in told or os.path.exists(f"{room}/out")
        cases.expect(f"{words} without rt", got, (True, 1, False), told)


def run(cases, _):
    with temporary() as work:
        parts = try_gate, try_measure, try_frame, try_library, try_store, try_checks, try_pictures, try_programs
        for part in (*parts, try_growths, try_without_rt):
            os.makedirs(f"{work}/{part.__name__}")
            part(cases, f"{work}/{part.__name__}/room")
