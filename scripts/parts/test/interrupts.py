"""Tests the launcher `tscache` without the toolchain where it is told to end, and where several calls meet.

A case is a row, as in `scripts/test launcher`: which signal comes in which answer or build, or which calls build at
one time. It tests too what a terminal and a log are told while a build goes on.
"""
import errno
import os
import pty
import re
import select
import signal
import subprocess
import time

from parts.stand_ins import BUILDING, LOW, NOTHING, REPLAY, UNPROVED, answer, any_text, case, play, same
from parts.stand_ins import words_of_cases as arguments

run = play
WAITING = "tscache: waiting for another build here\n"
FOREVER = 'trap "echo told >\\"$TOLD/signalled\\"; exit" TERM\necho $$ >"$TOLD/pid"\nwhile :; do sleep 0.05; done\n'


def line_of(it, seconds=60):
    """The next line of a call's standard error, or what of it came in time."""
    line, end = b"", time.time() + seconds
    while not line.endswith(b"\n") and select.select([it.stderr], [], [], max(0, end - time.time()))[0]:
        byte = os.read(it.stderr.fileno(), 1)
        if not byte:
            break
        line += byte
    return line.decode()


class Terminal:
    """A call at a terminal of its own, and what is told there."""

    def __init__(self, place, *words, stdout=None):
        self.master, slave = pty.openpty()
        # (so that the terminal is the call's own, and interrupts it)
        before = lambda: (os.setsid(), os.close(os.open(os.ttyname(2), os.O_RDWR)))
        self.it = place.start(*words, stdin=slave, stdout=stdout or slave, stderr=slave, preexec_fn=before)
        os.close(slave)
        self.told = ""

    def until(self, holds, seconds=60):
        end = time.time() + seconds
        while not holds(self.told):
            assert time.time() < end, f"what was waited for was not told: {self.told!r}"
            if select.select([self.master], [], [], 0.1)[0]:
                try:
                    self.told += os.read(self.master, 4096).decode().replace("\r\n", "\n")
                except OSError as error:
                    assert error.errno == errno.EIO, error
                    break
        return self.told

    def ended(self):
        self.until(lambda _: False)
        return self.it.wait(timeout=20)


def still(*seconds):
    return "".join(f"tscache: still building, for {it} seconds so far\n" for it in seconds)


@case("a build of which a terminal is not told each five seconds, and a log each twenty; or a second one that builds too")
def signs(place):
    place.write("told/sleeps", "")
    # (standard error alone is a terminal)
    it, began = Terminal(place, *REPLAY, stdout=subprocess.DEVNULL), time.time()
    same(it.until(lambda told: "for 10 " in told and told.endswith("\n")), BUILDING + still(5, 10))
    assert time.time() - began > 9.5, "the signs came too early"
    second = Terminal(place, *REPLAY)
    same(second.until(lambda told: told.endswith("\n")), WAITING)
    place.remove("told/sleeps")
    same((it.ended(), second.ended(), place.calls().count("tscache try")), (3, 3, 1))
    same((it.told, second.told), (any_text(".*\n" + re.escape(UNPROVED)), WAITING + UNPROVED + answer("new")))
    place.write(LOW, "two")
    place.write("told/sleeps", "")
    it, began = place.start(*REPLAY), time.time()
    same((line_of(it), line_of(it)), (BUILDING, still(20)))
    assert time.time() - began > 19.5, "the sign came too early"
    # (and it goes on where nobody reads it any more)
    it.stderr.close()
    time.sleep(20.5)
    place.remove("told/sleeps")
    it.wait(timeout=30)
    same(place.call(*REPLAY), (3, answer("unproved", source="two"), UNPROVED))


def signalled(place, name, words):
    """Signals a call once it sleeps, and wants that it ends by that soon, with all that it started."""
    it = Terminal(place, *words) if name == "^C" else place.start(*words)
    place.sleeping()
    began, number = time.time(), getattr(signal, f"SIG{name.split()[0]}", signal.SIGINT)
    if name == "^C":
        os.write(it.master, b"\x03")
        same(it.ended(), -number)
    else:
        it.send_signal(number)
        same(place.ended(it)[0], -number)
    assert time.time() - began < (20 if "deaf" in name else 8), "it took long to end"
    place.gone()


@case("a signal that the program doesn't get, or the launcher outlives",
    *((name, how) for name in ("TERM", "INT", "HUP", "QUIT", "^C") for how in ("unproved", "proved")))
def a_signal_in_an_answer(place, name, how):
    place.built(how)
    place.write("told/program", FOREVER)
    signalled(place, name, REPLAY)
    same(place.read("told/signalled"), "told\n")


@case("a signal in a build that something outlives, or that changes what was built",
    *((name, words) for name in ("TERM", "INT", "HUP", "^C", "TERM deaf") for words in (["prove"], REPLAY)))
def a_signal_in_a_build(place, name, words):
    place.built("proved")
    place.write(LOW, "two")
    same(place.answers(), "unproved from two")
    before, kind = place.there(), name.partition(" ")[2]
    place.write(LOW, "three")
    # (in a proof, rt sleeps over the program, of which it has written a half)
    place.write("told/edit", f'[ "$1 $(basename "$PWD")" != "lib mid" ] || echo {kind} >"$TOLD/sleeps"')
    if words == REPLAY:
        place.write("told/sleeps", f"{kind}\n")
    signalled(place, name, words)
    same(place.there(), before)
    place.rests()
    place.remove("told/edit", "told/sleeps")
    same((place.answers(), place.call("prove")[0]), ("unproved from three", 0))


@case("a killed build that leaves a lock, or that the next one doesn't mend", (REPLAY, "tscache"), (["prove"], "low"), (["prove"], "tscache"))
def a_killed_build(place, words, name):
    before = place.built("proved" if words == ["prove"] else "new")
    place.write(LOW, "two")
    place.write("told/edit", '[ "$1" = try ] || [ "$1 $(basename "$PWD")" != "lib mid" ] || echo >"$TOLD/sleeps"')
    if words == REPLAY:
        place.write("told/sleeps", "")
    it = place.start(*words, start_new_session=True)
    place.sleeping()
    it.kill()
    it.wait(timeout=20)
    folder = place.root + ("/crates" if words == ["prove"] else "/crates/tscache")
    same(subprocess.run(["flock", "-n", folder, "true"]).returncode, 0)
    # (what it had started goes on)
    os.killpg(it.pid, signal.SIGKILL)
    place.remove("told/edit", "told/sleeps")
    place.gone()
    place.write("told/fails", name)
    assert "waiting" not in place.call(*words)[2]
    same(place.there(), before)
    place.rests()
    place.write("told/fails", "")
    same(place.call(*words)[0], 0 if words == ["prove"] else 3)
    same(place.answers(), f"{'proved' if words == ['prove'] else 'unproved'} from two")
    place.rests()


@case("two builds at once that both build, one that waits and outlives a signal, or an answer that waits for a proof", (REPLAY,), (["prove"],))
def two_at_once(place, words):
    is_proof = words == ["prove"]
    place.write("told/edit", '[ "$1" != lib ] || echo >"$TOLD/proving"\nwhile [ "$1" = lib ] && [ -e "$TOLD/proving" ]; do sleep 0.05; done')
    proof = place.start("prove")
    place.until(lambda: place.read("told/proving"))
    if not is_proof:
        place.write("told/sleeps", "")
    calls = [proof] if is_proof else [place.start(*REPLAY)]
    if not is_proof:
        place.sleeping()
        same(line_of(calls[0]), BUILDING)
    calls += [place.start(*words) for _ in range(2)]
    same(([line_of(it) for it in calls[1:]], place.call("replays")[0]), ([WAITING, WAITING], 2))
    calls[2].send_signal(signal.SIGTERM)
    same(place.ended(calls[2])[0], -signal.SIGTERM)
    place.remove("told/proving" if is_proof else "told/sleeps")
    place.write("told/edit", "true" if is_proof else place.read("told/edit"))
    wanted = (0, "", NOTHING) if is_proof else (3, answer("new"), UNPROVED)
    same((place.ended(calls[0])[0], place.ended(calls[1])), (wanted[0], wanted))
    if not is_proof:
        place.remove("told/proving", "told/edit")
        same(place.ended(proof)[0], 0)
    same((sum(it.startswith("tscache run") for it in place.calls()), place.answers()), (1, "proved from one"))
    place.rests()
