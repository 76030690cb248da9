"""Builds a program without proofs, as fast as its proved build would be.

With --test it builds the program of a crate's tests, for `scripts/refuse growth`. With --library it
makes of these an object with what the crate exports to C, for `scripts/build library --unproved`.
All unproved builds are made so, also that of the launcher `tscache`, for answers until the program
is proved: it is the NAME that standard error tells then.

The kit's `rt try` makes a module of the program with checks in it. This takes the module from the
compiler's hands, leaves the checks out, and compiles and links the rest with the words that
`rattle build` has. Nothing that it builds is proved. What a program enters once in a call is
compiled beside the rest, so that two processors share the work; the library is one part.

All is made in a folder beside OUT, which appears once it is complete, and nothing is left of a
build that fails or is interrupted. Status 70 says that the build failed, and the last line on
standard error why; 73 that nothing can be written beside OUT; 74 that the disk is full; 127 that
`rt` is missing.
"""
import contextlib
import errno
import glob
import itertools
import os
import re
import shlex
import shutil
import signal
import subprocess
import sys
import tempfile
import threading
import time

from parts.frame import NO_RT as WITHOUT_RT, ROOT

TARGET = "x86_64-unknown-linux-gnu"
CPU = "x86-64-v2"
# (a trial takes one minute, and many on a machine with much else to do)
SECONDS = 1200
# How long one that is told to stop may take to end.
PATIENCE = 3
# Who tells on standard error what goes on.
OWN = TELLER = "build unproved"
SIGNALS = (signal.SIGTERM, signal.SIGHUP, signal.SIGINT)
# How often a terminal and a log are told that the build goes on.
SIGNS = {True: 5, False: 20}
FULL = [os.strerror(it) for it in (errno.ENOSPC, errno.EDQUOT)]
FAILED, NOT_WRITTEN, NO_ROOM, NO_RT = 70, 73, 74, 127
WHAT_FAILED = {
    FAILED: "the program was not built: ",
    NO_ROOM: "the disk is full, so nothing can be built: ",
}

# What a trial has and a proved build has not: calls of checks, and fills of each slot of the
# stack.
CHECK = re.compile(
    r'  call void @"rattle-llvm-checks::|.*call void @llvm\.memset\.p0\.i64\(.*i8 -86'
)
# What a proved build has and a trial has not: the processor's pause in a turn of a wait.
WAIT = 'define internal void @"core::hint::spin_loop"()'
PAUSE = '  call void asm sideeffect "pause", ""()\n'
# The byte that stops a trial, which it reads again and again.
STOP_READ = re.compile(r"load volatile i8, ptr @static\.0, align 1")
ATTRIBUTES = (
    (" sanitize_address", ""),
    ('"target-cpu"="x86-64"', f'"target-cpu"="{CPU}"'),
    ('"frame-pointer"="all"', '"frame-pointer"="none"'),
)
# What stands in a module.
NAME = re.compile(r'@(?:"[^"]+"|[\w.$-]+)')
EXPORTED = re.compile(r"define (?!internal )")
# The crates that a program enters once in a call, to read its words and to read its trace. Each is
# compiled beside the rest, and the first, which takes no time, with less optimisation.
APART = {'@"clap::': "-O1", '@"tsc_trace_fast::': "-O3"}
# The first line of an error, as the kit's tools write it.
ERROR = re.compile(r"^.*(?:\berror[:\[]|^error).*$", re.M)

# Stands in for the compiler: it keeps the program's module, which is larger than those that a
# trial asks with first.
COMPILER = """#!/bin/sh
kept=%(kept)s
for word in "$@"; do
    case $word in
    *.bc)
        if [ "$(wc -c <"$word")" -ge 100000 ]; then
            cp "$word" "$kept.part" && mv "$kept.part" "$kept"
            exit 1
        fi
        ;;
    esac
done
exec %(clang)s "$@"
"""
# Stands in for the prover, which a trial asks for a hint alone, and which would take a processor
# for as long as the trial.
PROVER = """#!/bin/sh
exit 1
"""


class Fault(Exception):
    """Why nothing was built, and the status that says so."""

    def __init__(self, why, status=FAILED):
        super().__init__(why)
        self.status = NO_ROOM if any(it in why for it in FULL) else status


def say(what):
    # (a build goes on where nobody reads what it tells)
    with contextlib.suppress(OSError):
        os.write(2, f"{TELLER}: {what}\n".encode(errors="surrogateescape"))


def tell_signs():
    """Tells from time to time that the build goes on."""
    period = SIGNS[os.isatty(2)]
    for seconds in itertools.count(period, period):
        time.sleep(period)
        say(f"still building, for {seconds} seconds so far")


def kit_of():
    """Returns the kit's folder."""
    if not shutil.which("rt"):
        raise Fault(WITHOUT_RT, NO_RT)
    told = call(["rt", "doc"], stdout=subprocess.PIPE).stdout.split()
    if not told:
        raise Fault("rt doc doesn't tell where the kit is")
    return os.path.dirname(told[-1])


def call(words, **how):
    """Runs a command that has to end well."""
    how = {"stdin": subprocess.DEVNULL, "stderr": subprocess.PIPE, **how}
    ended = subprocess.run(words, text=True, errors="replace", **how)
    expect_well(words, ended.returncode, ended.stderr)
    return ended


def expect_well(words, status, told):
    """Refuses a command that ended by another status than 0."""
    if status:
        name = os.path.basename(words[0])
        raise Fault(f"{name} failed with status {status}: {first_error(told)}")


def first_error(told):
    """Returns the line of what a command told that says most."""
    full = [line for line in told.splitlines() if any(it in line for it in FULL)]
    errors = ERROR.findall(told)
    return (full or errors or told.strip().splitlines()[-1:] or ["it told nothing"])[0].strip()


def overlay(kit, folder, kept):
    """Makes a kit that differs from this one in compiler and prover, and returns its `rt`."""
    for name in os.listdir(kit):
        if name not in ("bin", "toolchain"):
            os.symlink(f"{kit}/{name}", f"{folder}/{name}")
    os.makedirs(f"{folder}/bin")
    os.makedirs(f"{folder}/toolchain/bin")
    for name in os.listdir(f"{kit}/bin"):
        # `rt` finds its kit by where its own files are, links followed
        if name in ("rt", "rtlib.py"):
            shutil.copyfile(f"{kit}/bin/{name}", f"{folder}/bin/{name}")
        elif name != "rattle":
            os.symlink(f"{kit}/bin/{name}", f"{folder}/bin/{name}")
    for name in os.listdir(f"{kit}/toolchain"):
        if name != "bin":
            os.symlink(f"{kit}/toolchain/{name}", f"{folder}/toolchain/{name}")
    for name in os.listdir(f"{kit}/toolchain/bin"):
        if name != "clang":
            os.symlink(f"{kit}/toolchain/bin/{name}", f"{folder}/toolchain/bin/{name}")
    words = {"kept": shlex.quote(kept), "clang": shlex.quote(f"{kit}/toolchain/bin/clang")}
    for name, text in (("toolchain/bin/clang", COMPILER % words), ("bin/rattle", PROVER)):
        with open(f"{folder}/{name}", "w") as file:
            file.write(text)
        os.chmod(f"{folder}/{name}", 0o755)
    os.chmod(f"{folder}/bin/rt", 0o755)
    return f"{folder}/bin/rt"


def module_of(crate, rt, work, kept, is_test):
    """Has a trial of the crate make its module, and ends the trial before it runs."""
    flags = ["--test"]
    if not is_test:
        # A program that is tried on the files of a folder is compiled, and not interpreted first.
        os.mkdir(f"{work}/cases")
        open(f"{work}/cases/one", "w").close()
        flags = ["--cases", f"{work}/cases"]
    with open(f"{work}/told", "w+", errors="replace") as told:
        how = {"cwd": crate, "stdin": subprocess.DEVNULL, "stdout": told, "stderr": told}
        trial = subprocess.Popen([rt, "try", *flags], start_new_session=True, **how)
        try:
            end = time.monotonic() + SECONDS
            while not os.path.exists(kept) and trial.poll() is None and time.monotonic() < end:
                time.sleep(0.05)
        finally:
            # (`rt` ends what it started, and removes its folder)
            for number in (signal.SIGTERM, signal.SIGKILL):
                with contextlib.suppress(ProcessLookupError, subprocess.TimeoutExpired):
                    os.killpg(trial.pid, number)
                    trial.wait(PATIENCE)
        if not os.path.exists(kept):
            told.seek(0)
            text = told.read()
            if TELLER == OWN:
                print(text, end="", file=sys.stderr)
            raise Fault(f"{os.path.basename(crate)} was not compiled: {first_error(text)}")


def without_checks(lines):
    """Leaves out of a module what only a trial has, and puts in what it leaves out."""
    is_wait = False
    for line in lines:
        if "call void @" in line and CHECK.match(line):
            continue
        if "volatile" in line:
            line = STOP_READ.sub("add i8 0, 0", line)
        elif line.startswith("attributes "):
            for old, new in ATTRIBUTES:
                line = line.replace(old, new)
        yield line
        if is_wait and line == "start:\n":
            yield PAUSE
        is_wait = line.startswith(WAIT) or (is_wait and line != "start:\n")


class Module:
    """A module's functions and globals, each by its name, and the lines before and behind them."""

    def __init__(self, lines):
        self.head, self.items, self.end, self.used = [], {}, [], {}
        item = ["}\n"]
        for line in lines:
            if line.startswith(("define ", "@")):
                item = self.items[NAME.search(line)[0]] = [line]
            elif item[0].startswith("define ") and item[-1] != "}\n":
                item.append(line)
            else:
                (self.end if self.items else self.head).append(line)

    def used_by(self, name):
        """Returns which functions and globals one of them names."""
        if name not in self.used:
            lines = (line for line in self.items[name] if "@" in line)
            found = {it for line in lines for it in NAME.findall(line)}
            self.used[name] = found & self.items.keys()
        return self.used[name]

    def reached_from(self, names, is_apart=lambda name: False):
        """Returns what these use, and the entries of what is apart, at which that ends."""
        found, entries, rest = set(names), set(), list(names)
        while rest:
            for name in self.used_by(rest.pop()) - found:
                if is_apart(name):
                    entries.add(name)
                else:
                    found.add(name)
                    rest.append(name)
        return found, entries

    def lines(self, names, defined=(), declared=()):
        """Yields a module of these; some it defines for another one, some it takes from it."""
        yield from self.head
        for name, item in self.items.items():
            if name in declared:
                yield item[0].replace("define internal ", "declare hidden ").replace(" {\n", "\n")
            elif name in defined:
                yield item[0].replace("define internal ", "define hidden ")
                yield from item[1:]
            elif name in names:
                yield from item
        yield from self.end

    def exported(self):
        return [name for name, item in self.items.items() if EXPORTED.match(item[0])]

    def whole(self):
        """Returns the module as one part, with its optimisation, without what nothing uses."""
        return [("-O3", self.lines(self.reached_from(self.exported())[0]))]

    def parts(self):
        """Returns modules, each with its optimisation, that leave out what nothing uses.

        What several of them use stands in each.
        """
        is_apart = tuple(APART)
        first, entries = self.reached_from(self.exported(), lambda name: name.startswith(is_apart))
        parts, held = [("-O3", self.lines(first, declared=entries))], [first]
        for crate, level in APART.items():
            defined = {name for name in entries if name.startswith(crate)}
            if defined:
                held.append(self.reached_from(defined)[0])
                parts.append((level, self.lines(held[-1], defined)))
        # (what changes has to stand once)
        changing = [name for name, item in self.items.items() if " global " in item[0]]
        if any(sum(name in names for names in held) > 1 for name in changing):
            return self.whole()
        return parts


def exports(crate):
    """Returns the names of what a crate exports to C, by their paths in its module."""
    names = {}
    for path in glob.glob(f"{ROOT}/crates/{crate}/src/**/*.rt", recursive=True):
        part = os.path.relpath(path, f"{ROOT}/crates/{crate}/src")[: -len(".rt")]
        part = part.replace("/", "::")
        with open(path) as file:
            for name in re.findall(r'^pub extern "C" fn (\w+)', file.read(), re.M):
                names[f"{crate}::{name}" if part == "lib" else f"{crate}::{part}::{name}"] = name
    return names


def as_library(crate, lines):
    """Has a module of a crate's tests export what the crate exports to C, and nothing else."""
    names = exports(crate)
    inside = re.compile('@"(' + "|".join(map(re.escape, names)) + ')"')
    for line in lines:
        if line.startswith("define i32 @main("):
            line = line.replace("define i32", "define internal i32", 1)
        elif line.startswith("define internal ") and inside.match(line, line.index("@")):
            line = line.replace("define internal ", "define ", 1)
        yield inside.sub(lambda found: "@" + names[found[1]], line)


def readable(kit, work, kept):
    """Yields the lines of a module."""
    words = [f"{kit}/toolchain/bin/clang", f"--target={TARGET}", "-x", "ir", kept]
    words += ["-S", "-emit-llvm", "-O0", "-Xclang", "-disable-llvm-passes", "-o", "-"]
    with open(f"{work}/told", "w+", errors="replace") as told:
        how = {"stdin": subprocess.DEVNULL, "stdout": subprocess.PIPE, "stderr": told}
        with subprocess.Popen(words, text=True, **how) as reader:
            try:
                yield from reader.stdout
            except BaseException:
                reader.kill()
                raise
        if reader.returncode:
            told.seek(0)
            raise Fault(f"the module was not read: {first_error(told.read())}")


def compiled(kit, work, parts):
    """Compiles the parts of a module side by side, and returns their objects."""
    words = [f"{kit}/toolchain/bin/clang", f"--target={TARGET}", f"--sysroot={kit}/toolchain"]
    words += [f"-march={CPU}", "-mllvm", "-no-trap-after-noreturn", "-ffunction-sections"]
    words += ["-fdata-sections", "--no-default-config", "-no-canonical-prefixes", "-fPIE"]
    words += ["-Xclang", "-fmerge-functions", "-mllvm", "-mergefunc-use-aliases", "-c", "-x", "ir"]
    how = {"cwd": work, "stdin": subprocess.DEVNULL, "stderr": subprocess.PIPE, "text": True}
    running = []
    try:
        for number, (level, lines) in enumerate(parts):
            with open(f"{work}/part{number}.ll", "w") as file:
                file.writelines(lines)
            # (in its folder, so that no name of a folder gets into what is built)
            part = [*words, level, f"part{number}.ll", "-o", f"part{number}.o"]
            running.append(subprocess.Popen(part, errors="replace", **how))
        for it in running:
            told = it.communicate()[1]
            expect_well(words, it.returncode, told)
    finally:
        for it in running:
            it.kill()
    return [f"part{number}.o" for number in range(len(parts))]


def make(kit, crate, form, work):
    """Builds into the folder, and returns where the result lies."""
    kept = f"{work}/module.bc"
    os.mkdir(f"{work}/kit")
    module_of(f"{ROOT}/crates/{crate}", overlay(kit, f"{work}/kit", kept), work, kept, bool(form))
    lines = without_checks(readable(kit, work, kept))
    if form == "--library":
        (only,) = compiled(kit, work, Module(as_library(crate, lines)).whole())
        return f"{work}/{only}"
    objects = compiled(kit, work, Module(lines).parts())
    objects += [f"{kit}/c/libos_c.a", f"{kit}/c/liblibc_c.a"]
    words = ["--target", TARGET, "--toolchain", f"{kit}/toolchain", "-o", "program", *objects]
    call([f"{kit}/bin/rattle-link", *words], cwd=work, stdout=subprocess.DEVNULL)
    return f"{work}/program"


def folder_beside(out):
    """Makes the folder that all is made in."""
    beside = os.path.dirname(out)
    try:
        os.makedirs(beside, exist_ok=True)
        return tempfile.TemporaryDirectory(prefix="unproved-", dir=beside)
    except OSError as fault:
        why = f"nothing can be written to {beside}: {fault.strerror}"
        raise Fault(why, NOT_WRITTEN) from fault


def build(crate, out, form):
    kit = kit_of()
    if not os.path.isdir(f"{ROOT}/crates/{crate}/src"):
        raise Fault(f"there is no crate {crate}")
    with folder_beside(out) as work:
        say(f"building {'once' if TELLER != OWN else crate}, about a minute")
        threading.Thread(target=tell_signs, daemon=True).start()
        tempfile.tempdir = os.environ["TMPDIR"] = work
        os.replace(make(kit, crate, form, work), out)


def stop(number, _):
    for it in SIGNALS:
        signal.signal(it, signal.SIG_IGN)
    sys.exit(128 + number)


def arguments(parser):
    forms = parser.add_mutually_exclusive_group()
    forms.add_argument("--test", action="store_const", const="--test", dest="form", help="the program of its tests")
    forms.add_argument("--library", action="store_const", const="--library", dest="form", help="its exports to C")
    parser.add_argument("crate", metavar="CRATE")
    parser.add_argument("out", metavar="OUT", help="the file")
    parser.add_argument("teller", metavar="NAME", nargs="?", default=OWN, help="who tells what goes on")


def main(given):
    global TELLER
    TELLER = given.teller
    # So that the folder is removed, and what was started ends, when this is told to stop.
    for it in SIGNALS:
        signal.signal(it, stop)
    try:
        build(given.crate, os.path.abspath(given.out), given.form)
    except (Fault, OSError) as fault:
        if isinstance(fault, OSError):
            fault = Fault(f"{fault.strerror}: {fault.filename or 'a file of the build'}")
        say(WHAT_FAILED.get(fault.status, "") + str(fault))
        return fault.status
    return 0
