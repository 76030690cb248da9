"""Tests the installed command by a stand-in for its program, and its page, its completions and its figures.

A case is a row, as in `scripts/test launcher`. The command lies under a prefix that is moved at once, and needs no
toolchain. The page, the completions and the documents have to say what `help` says.
"""
import glob
import os
import pathlib
import re
import shutil
import subprocess

from parts.frame import ROOT, text_of
from parts.stand_ins import COMMANDS, COST, FILES, FLAGS, LOST, NONE, REPLAY, USAGE, case, not_run, play, same, shown, statuses
from parts.stand_ins import words_of_cases as arguments

run = play


class Installed:
    """An installed command, whose program is a stand-in, under a prefix that is moved at once."""

    def __init__(self, place, proved="yes"):
        self.place, self.prefix = place, f"{place.room}/a prefix"
        self.built = f"tscache 0.2.1\ncommit: 0123\nkit: kit-1\nproved: {proved}\n"
        place.write("first/libexec/tscache/built", self.built)
        place.command("first/libexec/tscache/tscache", '#!/bin/sh\nprintf "[%s]" "$@"\n. "$TOLD/program"\n')
        os.mkdir(f"{place.room}/first/bin")
        shutil.copy(f"{ROOT}/packaging/tscache", f"{place.room}/first/bin/tscache")
        shutil.copy(f"{ROOT}/packaging/words.sh", f"{place.room}/first/libexec/tscache/words.sh")
        os.rename(f"{place.room}/first", self.prefix)

    def call(self, *words, launcher=None):
        return self.place.call(*words, launcher=launcher or f"{self.prefix}/bin/tscache")


@case("an installed help that tells of proofs, or names another page", ("help",), ("--help",), ("-h",))
def installed_help(place, word):
    it = Installed(place)
    place.env.update({"cost": "a lot", "statuses": "many"})
    status, output, told = it.call(word)
    same((status, told, shown(output)), (0, "", [*COMMANDS, *FLAGS]))
    same(output.splitlines()[0], "tscache 0.2.1: the timestamp cache of CockroachDB, on recorded traces")
    assert f"{it.prefix}/share/doc/tscache/docs/FORMATS.md" in output and "prove " not in output, output
    for name in ("replay", "run", "check"):
        status, output, told = it.call(name, word if word != "help" else "--help")
        same((status, told, output.splitlines()[0]), (0, "", f"usage: tscache {name}{FILES[name]}"))
        same(statuses(output), [it for it in range(6) if it != 3 or name == "check"])


@case("words that an installed command doesn't hand on", *((words, words, told) for words, told in (
    (REPLAY, ""), ([], ""), (["replays", "-x"], ""), (["prove"], ""), (["prove", "--help"], ""), (["replay", "--", "-y"], LOST % ("-y", NONE)),
    (["replay", "none"], LOST % ("none", NONE)), (["check", "trace", "none"], LOST % ("none", NONE)),
)))
def installed_words(place, words, _, told):
    same(Installed(place).call(*words), (3, "".join(f"[{it}]" for it in words) or "[]", told))


@case("an installed command that needs the toolchain, or whose version, proof or refusal is told otherwise", ("yes", ""), ("no: built without proofs, for tests alone", "tscache: this program is not proved\n"))
def installed_answers(place, proved, said):
    it = Installed(place, proved)
    same(it.call("help", "prove"), (2, "", USAGE))
    same([it.call(word) for word in ("version", "--version", "-V")], 3 * [(0, it.built, "")])
    same(it.call("help")[2], "")
    place.write("told/program", "echo 'trace refused: fault 1' >&2\nexit 1\n")
    line = f'tscache: {it.prefix}/share/doc/tscache/docs/FORMATS.md, "Why a trace is refused", says what each fault means\n'
    same(it.call(*REPLAY), (1, "[replay][trace]", said + "trace refused: fault 1\n" + line))
    place.write("told/program", "exit 3\n")
    os.symlink(f"{it.prefix}/bin/tscache", f"{place.room}/far")
    os.symlink("../far", f"{place.here}/near")
    same(it.call(*REPLAY, launcher="./near"), (3, "[replay][trace]", said))
    place.env["PATH"] = f"{it.prefix}/bin:{os.environ['PATH']}"
    same(it.call("-c", "tscache replay trace", launcher="sh"), (3, "[replay][trace]", said))
    place.without("rt", "python3")
    same(it.call("replay", "none"), (3, "[replay][none]", LOST % ("none", NONE) + said))


@case("an installation that is not whole, and isn't told", ("words.sh",), ("built",), ("tscache",))
def an_installation_that_lacks(place, name):
    it = Installed(place)
    os.remove(f"{it.prefix}/libexec/tscache/{name}")
    same(it.call("help"), (70, "", f"tscache: its installation is not whole: {it.prefix}/libexec/tscache/{name} is missing\n"))


EACH = sorted({word for it in COMMANDS + FLAGS for word in re.split(r", | ", it) if word[0] == "-" or it.startswith(word)})
NO_FLAGS = [it for it in EACH if it[0] != "-"]
ALL_FLAGS = [it for it in EACH if it[0] == "-" and it != "--"]


@case("a man page with other words than help")
def the_man_page(place):
    page = text_of("packaging/tscache.1")
    own = re.findall(r"^\.It (Cm|Fl) (.*)$", page, re.M)
    commands = [line.replace("Ar ", "").replace("Op COMMAND", "[COMMAND]") for kind, line in own if kind == "Cm"]
    flags = [", ".join(f"-{it}" for it in line.split(" , ")) for kind, line in own if kind == "Fl"]
    same((commands, flags, page.count(".It Cm")), (COMMANDS, FLAGS, len(COMMANDS)))
    exits = page.split(".Sh EXIT STATUS")[1].split(".Sh")[0]
    same(re.findall(r"^\.It (\d+)$", exits, re.M), ["0", "1", "2", "3", "4", "5", "70"])
    if not shutil.which("mandoc"):
        not_run("the form of the man page: mandoc is missing")
    else:
        it = subprocess.run(["mandoc", "-Tlint", f"{ROOT}/packaging/tscache.1"], capture_output=True)
        same((it.returncode, it.stdout + it.stderr), (0, b""))


BASH = """. "$0"; COMP_WORDS=("$@"); COMP_CWORD=$(($# - 1)); _tscache; printf '%s\n' "${COMPREPLY[@]}" """
# What the file asks zsh's functions to offer, at the command and behind each.
ZSH = """
    _describe() { print -l -- ${${(P)2}%%:*} }
    _files() { }
    _arguments() { print -l -- $@ | sed -n 's/^([^)]*)\\(-[-a-zA-Z]*\\)\\[.*/\\1/p; s/^[0-9]*:\\(trace\\|log\\):_files/\\1/p'; state=$next; next= }
    next=$1; words=(${@[2,-1]})
    complete() { . $1 }; complete "$0"
"""
COMPLETED = [("bash", [""], [*ALL_FLAGS, *NO_FLAGS]), ("bash", ["--v"], ["--version"]), ("bash", ["re"], ["replay"]), ("bash", ["help", ""], NO_FLAGS)]
COMPLETED += [("bash", [name, ""], ["log", "trace"]) for name in ("replay", "run", "check")]
COMPLETED += [("bash", [name, "-"], ["--", "--help", "-h"]) for name in ("replay", "run", "check")]
COMPLETED += [("bash", ["check", "trace", "l"], ["log"]), ("bash", ["version", ""], []), ("zsh", ["command"], [*ALL_FLAGS, *NO_FLAGS])]
COMPLETED += [("zsh", ["words", name], [*ALL_FLAGS, *own]) for name, own in (("replay", ["trace"]), ("run", ["trace"]), ("check", ["log", "trace"]), ("help", NO_FLAGS))]


@case("a completion with other words than help", *COMPLETED)
def completed(place, shell, words, wanted):
    if not shutil.which(shell):
        not_run(f"the completion for {shell}: {shell} is missing")
        return
    place.remove(*(f"here/{it}" for it in os.listdir(place.here) if it not in ("trace", "log")))
    file, flags = {"bash": ("tscache.bash", ["-c", BASH]), "zsh": ("_tscache", ["-f", "-c", ZSH])}[shell]
    got = place.call(*flags, f"{ROOT}/packaging/completions/{file}", *["tscache"] * (shell == "bash"), *words, launcher=shell)
    same((sorted(set(got[1].split())), got[2]), (sorted(wanted), ""))


@case("a document that says another cost of a proof than the launcher")
def the_same_figures(place):
    figures = r"(\d+) minutes(?: on two (?:cores|processors))?,? (?:and )?(?:leaves )?(\d[\d.]*) GB"
    own = re.findall(figures, text_of("tscache"))
    same(own, re.findall(figures, COST))
    told = {}
    for path in [f"{ROOT}/README.md", *sorted(glob.glob(f"{ROOT}/docs/*.md"))]:
        text = " ".join(pathlib.Path(path).read_text().split())
        for it in re.findall(r"`\./tscache prove`[^.|]*?" + figures, text):
            told.setdefault(os.path.basename(path), []).append(it)
    same({it: told[it] for it in told if told[it] != own}, {})
    assert "BUILDING.md" in told, told
