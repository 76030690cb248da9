"""Tests the Go package over a library for C that was built.

The package is vetted, and each method that calls C is looked through for its `KeepAlive` and its
flag. The tests run plainly, and under the race detector with cgo's own checks of pointers, which have
to find a race and a wrong pointer. The package is built by `pkg-config`, by the lines of its README.md
for a program and for an installed release, and anew where the library has another sum. `go vet` has
to name each copy of a handle in a program, and `go` has to say what is missing where cgo or the
library is.
"""
import os
import re
import shutil

from parts.builds import Builds, words_of
from parts.frame import ROOT, outcome, temporary, text_of, write
from parts.repository import blocks, files

PACKAGE = f"{ROOT}/bindings/go"
# A call of C with the block of something, whose name is the group.
CALL = r"C\.tsc_go_(?!new\b|block\b)\w+\(\s*(\w+)\."
# What begins a call, and what writes to the memory that a call has for itself.
BEGINS = r"\.(take|open)\(\)"
WRITES = r"\.ask\("
PATH = "maulviolet.invalid/tscache"
PROGRAM = """package main

import (
	"fmt"

	"maulviolet.invalid/tscache"
)

func main() {
	c, err := tscache.Open(tscache.DefaultConfig())
	if err != nil {
		panic(err)
	}
	spans := []tscache.Span{tscache.Point([]byte("a"))}
	at, err := c.EarliestWrite(spans, tscache.Time{Wall: 20}, [16]byte{1})
	fmt.Println(at.Wall, err)
}
"""

# Copies of what must not be copied, one in each line that names its type in a comment.
COPIES = """package main

import "maulviolet.invalid/tscache"

type lease struct{ cache tscache.Cache }

func use(tscache.Pool) {} // Pool

func main() {
	c, _ := tscache.Open(tscache.DefaultConfig())
	shared, seats, _ := tscache.OpenShared(tscache.DefaultConfig(), 1, 1)
	l := lease{}
	l.cache = *c         // Cache
	other := *shared     // Shared
	for _, seat := range []tscache.Seat{*seats[0]} { // Seat
		seat.Close()
	}
	pool := tscache.NewPool(seats)
	use(*pool) // Pool
	_, _ = other.Close()
}
"""
# What is said where something is missing: by which words, with what in the environment, and what
# must not be said beside it.
NO_CGO = "undefined: tscache_calls_C__so_set_CGO_ENABLED_to_1_and_install_a_C_compiler"
NO_HEADER = "tscache.h is not found: set CGO_CFLAGS"
MISSING = {
    "go build without cgo": (["build", "."], {"CGO_ENABLED": "0"}, NO_CGO),
    "go vet without cgo": (["vet", "."], {"CGO_ENABLED": "0"}, NO_CGO),
    "go build without the header": (["build", "."], {"CGO_CFLAGS": ""}, NO_HEADER),
    "go vet without the header": (["vet", "."], {"CGO_CFLAGS": ""}, NO_HEADER),
    "go build without the library": (["build", "."], {"CGO_LDFLAGS": ""}, "cannot find -l"),
}
# What `go doc` shows of the package where there is neither a library nor a header.
DOCUMENTED = {
    "": "type Cache struct",
    "Cache.EarliestWrite": "func (c *Cache) EarliestWrite",
    "Pool": "func (p *Pool) GetContext",
}

# How many tests pass today at the least, each time.
LEAST = 78
# What the tests are run with the second time, and two faults that these have to find.
STRICT = ["-race"]
FAULTS = {
    "a race": ("go func() { total++ }()\n\ttotal++\n\ttime.Sleep(time.Second)", "DATA RACE"),
    "a pointer that C keeps": ("Keep()", "Go pointer"),
}
KEEPER = """package faults

// #include <stdlib.h>
import "C"

func Keep() { *(**int)(C.malloc(8)) = new(int) }
"""
FAULT = """package faults

import (
	"testing"
	"time"
)

var total = time.Now().Second()

func TestFault(t *testing.T) {
	%s
}
"""


def go(*words, cwd=PACKAGE, env):
    return outcome("go", *words, cwd=cwd, env=env)


def functions_of(path):
    return re.findall(r"^func (.*?)^}$", text_of(path), re.M | re.S)


def keeps_alive(cases):
    """Looks for functions that call C with a block of theirs, which the collector may free before
    C returns where nothing keeps it, and for those that call before they take the flag, or let go
    of it before C returns or before they have read what C wrote. What a call has for itself is
    written with the flag alone, and the flag is looked at and set in one step."""
    kept, asked, missing, in_one_step = 0, 0, [], False
    for path in (it for it in files("bindings/go/*.go") if not it.endswith("_test.go")):
        for function in functions_of(path):
            name = f"{os.path.basename(path)}: func {function.splitlines()[0]}"
            if name.startswith("handle.go: func (in *inner) take()"):
                # Nothing else reads the flag, or sets it before a call.
                in_one_step = re.findall(r"\w+\(&in\.taken.*\)", function) == [
                    "CompareAndSwapUint32(&in.taken, 0, 1)"
                ]
            writes = re.search(WRITES, function)
            if writes and not name.startswith("tscache.go: func (in *inner) ask("):
                asked += 1
                if not re.search(BEGINS, function[: writes.start()]):
                    missing.append(name)
            calls = list(re.finditer(CALL, function))
            if not calls:
                continue
            held = re.search(BEGINS, function[: calls[0].start()])
            # (one that is told what C answers ends with it)
            left = re.search(r"\.leave\((?!C\.tsc_go_)", function[: calls[-1].end()])
            # What C wrote is read before another call may write there.
            behind = function[calls[-1].end() :]
            read = re.search(r"\.leave\([\w.]+\)(.*\n)*.*\.block\.", behind)
            if f"runtime.KeepAlive({calls[-1][1]})" in behind and held and not left and not read:
                kept += 1
            else:
                missing.append(name)
    if not in_one_step:
        missing.append("handle.go: the flag is not looked at and set in one step")
    cases.expect("Go, KeepAlive and the flag in each function", missing, [])
    what = f"Go, KeepAlive and the flag in {kept} functions, {asked} of them with spans"
    cases.expect(what, kept >= 22 and asked >= 4)


def tests(cases, what, words, env):
    status, told = go("test", "-count=1", "-v", *words, "./...", env=env)
    passed, failed = (len(re.findall(f"^--- {how}", told, re.M)) for how in ("PASS", "FAIL"))
    cases.add(f"Go, {what}", passed, failed or int(status != 0), LEAST, told)


def checks_pointers(environment):
    """Has cgo look behind each pointer: a variable where Go is older than 1.21, and an experiment
    since."""
    version = re.search(r"go1\.(\d+)", go("version", env=environment)[1])
    if version and int(version[1]) >= 21:
        return {**environment, "GOEXPERIMENT": "cgocheck2"}
    return {**environment, "GODEBUG": "cgocheck=2"}


def finds(cases, work, env):
    """What the tests are run with finds what it is for."""
    for number, (what, (text, word)) in enumerate(FAULTS.items()):
        folder = f"{work}/fault{number}"
        contents = {"faults.go": KEEPER, "fault_test.go": FAULT % text, "go.mod": "module faults\n"}
        for name, content in contents.items():
            write(f"{folder}/{name}", content)
        status, told = go("test", "-count=1", *STRICT, ".", cwd=folder, env=env)
        cases.expect(f"Go, {what} is found", status != 0 and word in told, told=told)


def module_of(work, name, text, env):
    """A program in a module of its own, which has the package by a replaced path."""
    folder = f"{work}/{name}"
    write(f"{folder}/main.go", text)
    go("mod", "init", "example.invalid/program", cwd=folder, env=env)
    go("mod", "edit", f"-require={PATH}@v0.0.0", f"-replace={PATH}={PACKAGE}", cwd=folder, env=env)
    return folder


def copies(cases, work, env):
    """`go vet` names each copy of a handle."""
    folder = module_of(work, "copies", COPIES, env)
    status, told = go("vet", "-copylocks", ".", cwd=folder, env=env)
    for number, line in enumerate(COPIES.splitlines(), 1):
        name = re.search(r"// (\w+)$", line)
        if name:
            words = rf"main\.go:{number}:\d+: .*tscache\.{name[1]} contains .*tscache\.noCopy"
            is_named = status != 0 and re.search(words, told) is not None
            cases.expect(f"Go, vet names the copy of a {name[1]} in line {number}", is_named, told=told)


def missing(cases, work, env):
    """What is missing is named, and nothing beside it. `go doc` misses nothing."""
    folder = module_of(work, "missing", PROGRAM, env)
    for what, (words, without, says) in MISSING.items():
        status, told = go(*words, cwd=folder, env={**env, **without})
        others = re.sub(re.escape(NO_CGO), "", told)
        is_told = status != 0 and says in told and "undefined: " not in others
        cases.expect(f"Go, {what} says what is missing", is_told, told=told)
    bare = {**env, "CGO_CFLAGS": "", "CGO_LDFLAGS": ""}
    for what, says in DOCUMENTED.items():
        status, told = go("doc", f"{PATH}.{what}" if what else PATH, cwd=folder, env=bare)
        cases.expect(f"Go, go doc of {what or 'the package'}", status == 0 and says in told, told=told)
    status, told = go("doc", PATH, cwd=folder, env={**bare, "CGO_ENABLED": "0"})
    cases.expect("Go, go doc without cgo", status == 0 and "CGO_ENABLED=1" in told, told=told)


def shown(word):
    """The commands of README.md that have this word in them."""
    return "".join(it for it in blocks(text_of("bindings/go/README.md"), "sh") if word in it)


def program(cases, out, work, env):
    """A program in a module of its own, by the lines of README.md: with a replaced path, in a
    workspace, and over an installed release; and once more over a library of another sum."""
    without = {key: value for key, value in env.items() if key != "GOFLAGS"}
    prefix = f"{work}/prefix"
    shutil.copytree(PACKAGE, f"{prefix}/share/tscache/bindings/go")
    for name, place in (("tscache.h", "include"), ("libtscache.a", "lib")):
        os.makedirs(f"{prefix}/{place}")
        shutil.copy(f"{out}/{name}", f"{prefix}/{place}")
    places = {"REPOSITORY": ROOT, "OUT": out, "PREFIX": prefix}
    for name, lines in (
        ("replaced", shown("REPOSITORY/bindings")),
        ("worked", f"go work init . {PACKAGE}\n"),
        ("installed", shown("PREFIX/share")),
    ):
        folder = f"{work}/{name}"
        write(f"{folder}/main.go", PROGRAM)
        lines = re.sub("(REPOSITORY|OUT|PREFIX)", lambda word: places[word[1]], lines)
        lines = f"set -e\ngo mod init example.invalid/program 2>/dev/null\n{lines}\ngo run .\n"
        around = without
        if name != "worked":
            around = {key: value for key, value in without.items() if not key.startswith("CGO_")}
        _, told = outcome("sh", "-c", lines, cwd=folder, env=around)
        cases.expect(f"Go, a program by the lines of README.md, {name}", told, "20 <nil>\n")
        if name == "replaced":
            built = []
            for flags in (f"-I{out} -DTSCACHE_SUM={number}" for number in (1, 1, 2)):
                words = ["build", "-x", "-o", f"{folder}/program", "."]
                built.append(go(*words, cwd=folder, env={**without, "CGO_CFLAGS": flags})[1])
            is_seen = ["-DTSCACHE_SUM" in told for told in built]
            cases.expect("Go, a library of another sum is seen", is_seen, [True, False, True], "\n".join(built))


def is_there():
    return shutil.which("go") is not None


def try_all(cases, out):
    """Tests the package over a folder with the library for C."""
    if not cases.has("go", "the package for Go"):
        return
    with temporary() as work:
        flags = {"CGO_ENABLED": "1", "CGO_CFLAGS": f"-I{out}", "CGO_LDFLAGS": f"-L{out}"}
        env = {"GOCACHE": f"{work}/go", **os.environ, **flags, "GOPROXY": "off", "GOFLAGS": "-mod=mod"}
        status, told = go("vet", "./...", env=env)
        cases.expect("Go, vet", status, 0, told)
        cases.expect("Go, gofmt", outcome("gofmt", "-l", ".", cwd=PACKAGE), (0, ""))
        keeps_alive(cases)
        tests(cases, "as it is", [], env)
        strict = checks_pointers(env)
        tests(cases, "under the race detector, with checks of pointers", STRICT, strict)
        finds(cases, work, strict)
        copies(cases, work, env)
        missing(cases, work, env)
        if cases.has("pkg-config", "the package for Go by pkg-config"):
            bare = {key: it for key, it in env.items() if key not in flags or key == "CGO_ENABLED"}
            status, told = go("build", "-tags", "tscache_pkgconfig", "./...", env={**bare, "PKG_CONFIG_PATH": out})
            cases.expect("Go, by pkg-config", status, 0, told)
        program(cases, out, work, env)


def arguments(parser):
    words_of(parser)


def run(cases, given):
    with temporary() as work:
        try_all(cases, Builds(given, work).library())
