"""Tests the launcher `tscache` without the toolchain: its words, what is stale, and builds.

A copy of it, in a small repository in a temporary folder, meets a kit that does as each case tells it. A case is
a row: what mistake it finds, the words, and what is wanted, where a program is built or not. `scripts/test
first-answer` has it meet the real kit, `scripts/test interrupts` ends it and calls it twice at once, and
`scripts/test installed` tries the installed command.
"""
import os
import pathlib
import re
import shutil
import socket
import subprocess

from parts.stand_ins import BUILDING, COMMANDS, COST, FILES, FLAGS, LOG, LOST, LOW, NONE, NO_RT, REPLAY, UNPROVED, USAGE
from parts.stand_ins import NOTHING, answer, any_text, case, not_run, play, same, shown, statuses, told_first
from parts.stand_ins import words_of_cases as arguments

run = play
CHANGED = "tscache: a source was changed meanwhile, so what was built is not taken: call it again\n"
NO_PYTHON = "tscache: Python is missing: its command python3 is not on the PATH\n"
FAILED, FULL_DISK = "tscache: the program was not built: ", "tscache: the disk is full, so nothing can be built: "
NOT_WRITTEN = "tscache: nothing can be written to "
STEPS = [f"proving and building what has changed; from nothing that takes {COST}", "1 of 3: low", "2 of 3: mid"]
STEPS = re.compile("".join(f"tscache: {it}\n" for it in [*STEPS, "3 of 3: tscache", r"proved and built in \d+ seconds"]))
FULL, READ_ONLY, QUOTA = "No space left on device", "Read-only file system", "Disk quota exceeded"
PROVED = "root/crates/tscache/out/tscache.proved"
TRIED = ["here version", "here doc", "tscache try"]


# ---- one call


def is_help(told):
    first = "tscache 0.2.1: the timestamp cache of CockroachDB, on recorded traces\n"
    words = [*COMMANDS[:3], "prove", *COMMANDS[3:], *FLAGS]
    return told.startswith(first) and shown(told) == words and "docs/FORMATS.md" in told and f"({COST})" in told


def explains(name, what):
    """What an explanation has: its files, streams and statuses."""
    own = [0, 2] if name == "prove" else [it for it in range(6) if it != 3 or name == "check"]

    def holds(told):
        lines = told.splitlines()
        has_all = name == "prove" or "FILE is a trace" in told and "Standard output gets" in told
        is_first = lines[0] == f"usage: tscache {name}{FILES[name]}" and what in lines[2] + lines[3]
        return is_first and has_all and statuses(told) == [*own, 69, 70, 73, 74, 127]

    return holds


WRONG = ["replays trace", "", "replay", "run trace trace", "check trace", "check trace log log", "replay -x", "replay trace -x"]
WRONG += ["-- replay trace", "-- --help", "help trace", "help run check", "version run", "replay --version", "prove trace"]
WRONG = [it.split() for it in WRONG] + [["--help", ""], ["replay", b"trace\xff"], ["replay", b"odd\xff"], [""]]
EXPLAINED = [("one thread", "replay --help; replay trace -h; help replay"), ("a thread of its own", "run -h; --help run")]
EXPLAINED += [("which of its lines", "check --help trace; help check"), ("24 minutes", "prove --help; help prove")]
EXPLAINED = [(it.split(), what) for what, all_words in EXPLAINED for it in all_words.split("; ")]
# What reaches the program, and its input.
REACH = ["replay trace", "replay -- -x", "replay -", "replay -- --", "check log -- -x", "replay /proc/self/cmdline"]
REACH += ["replay /dev/null", "replay -- --help", "run -- -h", "check -- --help -h", "replay /dev/stdin", "check trace /dev/stdin"]
REACH = [it.split() for it in REACH] + [["run", "a b'\"$x*\n=é"]]
# The words, the file that is told, and why it can't be read.
UNREAD = [("replay none", "none", NONE), ("run -- -y", "-y", NONE), ("check trace none", "none", NONE), ("check none gone", "none", NONE)]
UNREAD += [("replay trace/x", "trace/x", "Not a directory"), ("replay dangling", "dangling", NONE), ("replay .", ".", "Is a directory")]
UNREAD += [("replay round", "round", "Too many levels of symbolic links"), (f"replay {300 * 'x'}", 300 * "x", "File name too long")]
UNREAD += [("replay /proc/none", "/proc/none", NONE), ("replay socket", "socket", "No such device or address")]
UNREAD += [("check . none", ".", "Is a directory")]
UNREAD = [(it.split(), *told) for it, *told in UNREAD] + [(["replay", it], it, NONE) for it in ("", "b'\"$x*\n=é: ")]
BESIDE = (["check", "trace", "."], ".", "Is a directory")
PAGE = 'tscache: docs/FORMATS.md, "Why a trace is refused", says what each fault means'
SAYS = {0: "", 1: "trace refused: fault 1\n", 2: "usage\n", 3: "", 4: "read failed\n", 5: "out of memory\n"}
# What each row finds, its words, the status, the output, what is told, and how it is played: in which states, with
# which program and input. The program's first line stands before an output, unless the launcher answers by itself.
ROWS = [("wrong words that are taken, or build something", it, 2, "", USAGE, {"in": "new", "is": ""}) for it in WRONG]
ROWS += [("a help that lacks a word, is told elsewhere or builds", it.split(), 0, is_help, "", {})
    for it in ("help", "--help", "-h", "help help", "help version")]
ROWS += [("an explanation that lacks files, streams or statuses", it, 0, explains(next(w for w in it if w in FILES), what), "",
    {"in": "new"}) for it, what in EXPLAINED]
ROWS += [("a word or a byte of input that doesn't reach the program", it, 3, "".join(f"[{w}]\n" for w in it) + "given" * ("stdin" in it[-1]),
    "@", {"is": 'printf "[%s]\\n" "$@"\ncat\nexit 3\n', "given": "given" * ("stdin" in it[-1])}) for it in REACH]
ROWS += [("a file that can't be read, and isn't told before a build", it, 4, "", LOST % (file, why) + "read failed\n",
    {"in": "new", "is": ""}) for it, file, why in UNREAD]
ROWS += [("a file that can't be read, and isn't told of a program", it, 4, "", LOST % (file, why) + "@read failed\n",
    {"in": "unproved proved", "is": "echo 'read failed' >&2\nexit 4\n"}) for it, file, why in [*UNREAD, BESIDE]]
ROWS += [("a status or a word of the program that is changed", [name, "trace"] + ["log"] * (name == "check"), status, "",
    "@" + told + (PAGE + end) * (status == 1), {"is": f"printf '{told}' >&2\nexit {status}\n"})
    for name, end in (("replay", "\n"), ("check", ', and "Logs" those of a log\n')) for status, told in SAYS.items()]
ROWS += [("a program that a signal ends, and another status", REPLAY, 137, "", lambda told: True, {"in": "unproved", "is": "kill -9 $$\n"})]


@case("", *((finds, status, words, *row) for finds, words, status, *row in ROWS))
def a_row(place, _, status, words, output, told, how):
    os.symlink("none", f"{place.here}/dangling")
    os.symlink("round", f"{place.here}/round")
    pathlib.Path(os.fsdecode(f"{place.here}/".encode() + b"odd\xff")).touch()
    os.chdir(place.here)
    with socket.socket(socket.AF_UNIX) as it:
        it.bind("socket")
    for state in how.get("in", "new unproved proved").split():
        is_own = how.get("is", None) == "" or callable(output)
        place.built(state)
        place.write("told/program", how.get("is") or "exit 3\n")
        got = place.call(*words, given=how.get("given"))
        same(got[0], status)
        assert output(got[1]) if callable(output) else got[1] == ("" if is_own else answer(state, words)) + output, got
        assert told(got[2]) if callable(told) else got[2] == told.replace("@", told_first(state)), got
        if is_own:
            same(place.calls(), [])


@case("words that could not be written, and nobody is told", (["help"],), (["run", "--help"],), (["version"],))
def to_a_full_device(place, words):
    with open("/dev/full", "wb") as full:
        status, _, told = place.call(*words, stdout=full)
    same((status, told.splitlines()[-1]), (4, "write failed"))


@case("a version that says other than what answers")
def version_of(place):
    def told(kit, proved, commit="unknown"):
        for word in ("version", "--version", "-V"):
            same(place.call(word), (0, f"tscache 0.2.1\ncommit: {commit}\nkit: {kit}\nproved: {proved}\n", ""))

    told("unknown", "no: nothing is built of these sources yet")
    place.built("unproved")
    told("kit-1", "no: built without proofs, for tests alone")
    place.built("proved")
    told("kit-1", "yes")
    git = ["git", "-C", place.root, "-c", "user.name=test", "-c", "user.email=test"]
    for it in ("init -q", "add VERSION tscache", "commit -q -m all"):
        subprocess.run([*git, *it.split()], check=True)
    commit = subprocess.run([*git, "rev-parse", "HEAD"], capture_output=True, text=True).stdout.strip()
    told("kit-1", "yes", commit)
    place.write("root/tscache", place.read("root/tscache") + "\n")
    os.chmod(place.launcher, 0o755)
    told("kit-1", "yes", f"{commit}-dirty")
    place.write(LOW, "two")
    told("unknown", "no: nothing is built of these sources yet", f"{commit}-dirty")


@case("a pipe whose writer meets a reader that goes away, or a closed input that is opened")
def pipes(place):
    place.built("unproved")
    place.write("told/program", 'cat "$2"\nexit 3\n')
    os.mkfifo(f"{place.here}/pipe")
    it = place.start("replay", "pipe")
    subprocess.run(["bash", "-c", "sleep 0.3; for i in 1 2 3; do echo $i; sleep 0.2; done >pipe"], cwd=place.here, timeout=20)
    same(place.ended(it)[1], "unproved from one: replay pipe\n1\n2\n3\n")
    place.write("told/program", 'cat "$2" "$3"\nexit 3\n')
    got = place.shell('"$0" check <(printf first) <(printf second)', "bash")[1]
    same(got, any_text(r"unproved from one: check \S+ \S+\nfirstsecond"))
    place.write("told/program", "true 8<&0 && echo open\nexit 3\n")
    same(place.shell('"$0" replay trace <&-')[:2], (3, answer("unproved")))
    place.write("told/program", "for i in $(seq 20000); do echo more 2>/dev/null || exit 4; done\n")
    same(place.shell('"$0" replay trace | true; echo ${PIPESTATUS[0]}', "bash")[1], "4\n")


# (a program that can't write tells so by itself, and what the shell says of its echo stands before)
@case("a closed stream that changes the status, or is written to",
    (">&-", 4, ".*write failed\n"), (">/dev/full", 4, ".*write failed\n"), ("2>&-", 3, ".*"), (">&- 2>&-", 4, ".*"))
def closed(place, where, status, told):
    for how in ("new", "unproved", "proved"):
        if how == "proved":
            same(place.shell(f'"$0" prove {where}')[0], 0)
        place.write("told/program", "echo more || { echo 'write failed' >&2; exit 4; }\nexit 3\n")
        got = place.shell(f'"$0" replay trace {where}')
        same((got[0], got[2]), (status, any_text(re.escape(told_first(how)) * ("2>" not in where) + told)))
        place.rests()
    same(place.call("version")[1].splitlines()[-1], "proved: yes")


@case("a launcher that isn't found by links, takes CDPATH for its place, or makes a file elsewhere")
def found_by_links(place):
    shutil.copy(place.launcher, f"{place.here}/tscache")
    before = sorted(os.listdir(place.here))
    told = "tscache: this script is not in its repository: crates.txt and crates/tscache are not beside it\n"
    for words in (REPLAY, ["prove"], []):
        same(place.call(*words, launcher="./tscache"), (70, "", told))
    same(sorted(os.listdir(place.here)), before)
    os.makedirs(f"{place.here}/crates/tscache")
    same(place.call(*REPLAY, launcher="./tscache"), (70, "", told))
    os.symlink(place.launcher, f"{place.room}/far")
    os.symlink("../far", f"{place.here}/near")
    os.mkdir(f"{place.here}/inner")
    place.env.update({"CDPATH": f"{place.here}:/", "TMPDIR": "inner"})
    for how in ("new", "unproved", "proved"):
        if how == "proved":
            same(place.call("prove", launcher="../a root/tscache")[0], 0)
        same(place.call(*REPLAY, launcher="./near")[1], answer(how))
    same(os.listdir(f"{place.here}/inner"), [])


# ---- builds


@case("a first answer that isn't built once and kept, without its lock, and beside the program")
def a_first_answer(place):
    same((place.call(*REPLAY), place.calls()), ((3, answer("new"), BUILDING + UNPROVED), TRIED))
    same(sorted(os.listdir(place.out)), ["tscache.unproved", "tscache.unproved.stamp"])
    assert place.read("told/room").startswith(f"{place.out}/unproved-"), place.read("told/room")
    same((place.call(*REPLAY), len(place.calls())), ((3, answer("unproved"), UNPROVED), 3))
    same(os.listdir(place.temporary), [])


@case("a missing tool that is told otherwise, or that a built program needs", ("rt", 127, NO_RT), ("python3", 69, NO_PYTHON))
def without_a_tool(place, name, status, told):
    path = place.env["PATH"]
    for how in ("new", "unproved", "proved"):
        place.built(how)
        place.without(name) if how == "new" else place.env.update({"PATH": f"{place.room}/few"})
        same(place.call(*REPLAY), (status, "", told) if how == "new" else (3, answer(how), told_first(how)))
        place.env["PATH"] = path
    place.write(LOW, "two")
    place.env["PATH"] = f"{place.room}/few"
    same(place.call("prove"), (status, "", told))


FIRST = "src/lib.rt:3:1: it is not proved that the first"
ERRORS = "x\nsrc/lib.rt:4:1: error[name]: y\nz\n"
# The crate whose build or proof fails, what the kit tells, the status, and which line of that is told.
FAILURES = [("try", "tscache", ERRORS, 70, "src/lib.rt:4:1: error[name]: y"), ("try", "tscache", "a\nb\n", 70, "b")]
FAILURES += [("try", "tscache", f"error: a\n{it}: b\n", 74, f"{it}: b") for it in (FULL, QUOTA)]
FAILURES += [("try", "tscache", "", 70, "it told nothing"), ("prove", "low", LOG, 70, FIRST), ("prove", "tscache", LOG, 70, FIRST)]
FAILURES += [("prove", "low", "a\nb: error: c\nerror: d\n", 70, "b: error: c"), ("prove", "low", "a\nerror: d\nb\n", 70, "error: d")]
FAILURES += [("prove", "low", "a: no proof: b\nc\n", 70, "a: no proof: b"), ("prove", "low", "a\nb\n", 70, "b")]
FAILURES += [("prove", "low", "", 70, "rt told nothing, and ended with status 1")]
FAILURES += [("prove", "low", f"b: error: c\n{FULL}: ../rtlib.py\n", 74, f"{FULL}: ../rtlib.py")]


@case("a build or a proof that fails with another status or word, leaves something, or loses what was built", *FAILURES)
def a_build_that_fails(place, kind, crate, log, status, told):
    for how in ("new", "proved"):
        before = place.built(how)
        place.write(LOW, "two")
        place.write("told/fails", crate)
        place.write("told/log", log)
        got = place.call(*(REPLAY if kind == "try" else ["prove"]))
        if kind == "try":
            first = FAILED if status == 70 else FULL_DISK
            same(got, (status, "", f"{BUILDING}{first}tscache was not compiled: {told}\n"))
            same(os.listdir(place.out) if how == "new" else [], [])
        else:
            lines = [f"tscache: {crate} was not built; the log is {place.out}/tscache.log", f"tscache: {told}"]
            same((got[:2], got[2].splitlines()[-2:]), ((status, ""), lines))
            assert place.read(f"{place.out}/tscache.log").endswith(f", in {crate}\n{log}")
        same(place.there(), before)
        place.rests()
        place.write("told/fails", "")
        place.write(LOW, "one")
    same(place.answers(), "proved from one")


@case("a tool of the kit that fails and isn't named, or a build that is killed and isn't told")
def a_tool_that_fails(place):
    tools = {"toolchain/bin/clang": "the module was not read", "bin/rattle-link": "rattle-link failed with status 1"}
    for name, told in tools.items():
        own = place.read(f"kit/{name}")
        place.command(f"kit/{name}", "#!/bin/sh\necho 'clang: error: x' >&2\nexit 1\n")
        same(place.call(*REPLAY), (70, "", f"{BUILDING}{FAILED}{told}: clang: error: x\n"))
        place.command(f"kit/{name}", own)
    place.write("told/edit", "kill -9 $PPID\n")
    # (a shell may say of itself that what it waited for was killed)
    told = re.escape(f"{BUILDING}") + "(Killed\n)?" + re.escape(f"{FAILED}it ended with status 137\n")
    same(place.call(*REPLAY), (70, "", any_text(told)))
    place.remove("told/edit")
    place.built("unproved")
    place.rests()


WRITES = [("replay trace", "tee", FULL, 74), ("replay trace", "tee", QUOTA, 74), ("replay trace", "mv", FULL, 74)]
WRITES += [("replay trace", "mv", READ_ONLY, 73), ("prove", "mkdir", FULL, 74), ("prove", "tee", READ_ONLY, 73)]
WRITES += [("prove", "cp", FULL, 74), ("prove", "mv", FULL, 74)]


@case("a write into the checkout that fails, whose status or word is another, or that leaves something", *WRITES)
def a_write_that_fails(place, words, name, why, status):
    # (the kit's own calls are made elsewhere)
    fails = f'case $PWD in */here) echo "{name}: x: {why}" >&2; exit 1 ;; esac'
    place.command(f"bin/{name}", f'#!/bin/sh\n{fails}\nexec {shutil.which(name)} "$@"\n')
    got = place.call(*words.split())
    same((got[:2], got[2].splitlines()[-1]), ((status, ""), f"{NOT_WRITTEN}{place.out}: {why}"))
    os.remove(f"{place.bin}/{name}")
    place.rests()
    place.built("proved" if words == "prove" else "unproved")


@case("a folder that can't be made, or a disk without room, whose status or word is another",
    ("replay trace", "file", 73), ("prove", "file", 73), ("prove", "size=64k", 74), ("prove", "ro", 73))
def on_a_disk_without_room(place, words, options, status):
    mount, why = ["env"], "File exists"
    if options == "file":
        place.write("root/crates/tscache/out", "a file")
    else:
        os.makedirs(place.out)
        why = READ_ONLY if options == "ro" else FULL
        fill = f"{{ head -c 1000000 /dev/zero >'{place.out}/filled' 2>/dev/null || true; }}"
        mount = ["unshare", "--mount", "sh", "-c", f"mount -t tmpfs -o {options} none '{place.out}' && {fill} && exec \"$@\"", ""]
        if subprocess.run([*mount, "true"], capture_output=True).returncode:
            not_run("a disk without room: nothing can be mounted here")
            return
    got = place.call(*mount[1:], place.launcher, *words.split(), launcher=mount[0])
    same(got, (status, "", any_text(f"(.*\n)?{NOT_WRITTEN}[^\n]*: {why}\n")))


@case("sources that can't be read, and are taken for what was built")
def unreadable_sources(place):
    place.built("proved")
    place.command("bin/cksum", "#!/bin/sh\necho 'cksum: x: Permission denied' >&2\nexit 1\n")
    for words in (["prove"], REPLAY):
        same(place.call(*words), (70, "", "cksum: x: Permission denied\ntscache: the sources cannot be read\n"))
    same(place.call("version")[1].splitlines()[2:], ["kit: unknown", "proved: no: nothing is built of these sources yet"])


@case("files whose modes are not those of a umask", ("077", [0o600, 0o700]), ("022", [0o644, 0o755]))
def under_a_umask(place, mask, modes):
    for words, status in (("replay trace", 3), ("prove", 0), ("replay trace", 3)):
        same(place.shell(f'umask {mask}; "$0" {words}')[0], status)
    same(sorted({os.stat(place.path(it)).st_mode & 0o777 for it in (PROVED, f"{PROVED}.stamp")}), modes)


@case("a source that changes during a build, whose program is taken", (REPLAY,), (["prove"],))
def a_source_that_changes(place, words):
    before = place.built("proved" if words == ["prove"] else "new")
    place.write("root/crates/mid/src/lib.rt", "two")
    place.write("told/edit", '[ "$1" = lib ] || echo three >"$ROOT/crates/mid/src/lib.rt"')
    same(place.call(*words), (70, "", any_text(".*\n" + CHANGED)))
    place.rests()
    same(place.there(), before)
    place.remove("told/edit")
    same(place.answers(), "unproved from one")


# ---- proofs, and what is stale


@case("a proof that leaves out a crate or a step, proves another one, or whose program doesn't answer")
def a_proof(place):
    place.built("unproved")
    same(place.call("prove"), (0, "", STEPS))
    same(place.calls(), ["here version", "low lib", "mid lib", "tscache run -- replay data/trace.json"])
    for words in (["check", "trace", "log"], ["replays"]):
        same(place.call(*words), (3, answer("proved", words), ""))
    same(sorted(os.listdir(place.out)), ["tscache", "tscache.log", "tscache.proved", "tscache.proved.stamp"])
    place.write("told/calls", "")
    # (also where one is left beside it)
    place.write(f"{place.out}/tscache.unproved", "left")
    same(place.call("prove"), (0, "", NOTHING))
    same((place.calls(), place.read(f"{place.out}/tscache.unproved")), (["here version"], None))
    place.write("told/kit", "kit-2\n")
    same(place.call("prove")[2], STEPS)
    same(place.call("version")[1].splitlines()[2], "kit: kit-2")


@case("a stale proved program that answers, or is lost before the next proof")
def a_stale_proved_program(place):
    before = place.built("proved")
    place.write(LOW, "two")
    same(place.call(*REPLAY), (3, answer("unproved", source="two"), BUILDING + UNPROVED))
    same([place.there()[it] for it in before if ".proved" in it], [before[it] for it in before if ".proved" in it])
    place.write(LOW, "one")
    same(place.call(*REPLAY), (3, answer("proved"), ""))


MID = "root/crates/mid/src/lib.rt"
STALE = {
    "a changed source": lambda it, _: it.write(LOW, "two"),
    "a new proof": lambda it, _: it.write("root/crates/mid/proofs/Deep/New.antt", ""),
    "changed specs of the lowest crate": lambda it, _: it.write("root/crates/low/specs/Low.antt", "two"),
    "a changed proof": lambda it, _: it.write("root/crates/low/proofs/lowest/Answers.antt", "two"),
    "new specs of the program's crate": lambda it, _: it.write("root/crates/tscache/specs/New.antt", ""),
    "proofs that are gone": lambda it, _: it.remove("root/crates/low/proofs"),
    "a source that is gone": lambda it, _: it.remove(MID),
    "crates.txt": lambda it, _: it.write("root/crates.txt", "low: std\ntscache: low\n"),
    "crates.txt, of the same crates": lambda it, _: it.write("root/crates.txt", "low: std\nmid: low std\ntscache: mid\n"),
    "another program": lambda it, out: it.command(out, "#!/bin/sh\necho other\n"),
    "a program that doesn't run": lambda it, out: os.chmod(it.path(out), 0o644),
    "no program": lambda it, out: it.remove(out),
    "no stamp": lambda it, out: it.remove(f"{out}.stamp"),
    "an old change": lambda it, _: (it.write(LOW, "two"), os.utime(it.path(LOW), (1, 1))),
    "a name with blanks": lambda it, _: it.write("root/crates/mid/src/a b", ""),
    "a changed file behind a link": lambda it, _: it.write("elsewhere", "two"),
}
FRESH = {
    "a date in the future": lambda it, _: os.utime(it.path(LOW), (4e9, 4e9)),
    "a link to nothing": lambda it, _: os.symlink("none", it.path("root/crates/mid/src/.#lib.rt")),
    "a crate that it doesn't stand on": lambda it, _: it.write("root/crates/late/src/lib.rt", "two"),
    "a crate aside": lambda it, _: it.write("root/crates/aside/src/lib.rt", "two"),
    "what was built": lambda it, _: it.write("root/crates/low/out/lib", "two"),
}


@case("sources that are stale and aren't told so, or the other way round",
    *((f"{name}, {how}", how, name) for name in {**STALE, **FRESH} for how in ("unproved", "proved")))
def stale(place, _, how, name):
    place.write("elsewhere", "one")
    os.symlink(f"{place.room}/elsewhere", place.path("root/crates/mid/src/link.rt"))
    place.built(how)
    is_stale = name in STALE
    {**STALE, **FRESH}[name](place, f"root/crates/tscache/out/tscache.{how}")
    source = place.read(LOW)
    told = (2, "", USAGE) if is_stale else (3, answer(how, ["replays"]), told_first(how))
    same((place.call("replays"), place.calls()), (told, []))
    for _ in range(2):
        same(place.answers(), f"{'unproved' if is_stale else how} from {source}")
        same(place.calls(), TRIED if is_stale else [])
