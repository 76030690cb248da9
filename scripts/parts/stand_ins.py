"""A repository with the launcher and a stand-in for the kit, in which parts play their cases.

The kit's stand-ins are the files of `parts/test/kit`. Other files of the folder $TOLD tell them what
to do, and `calls` there gets a line for each call. A program that they build prints how it was
built, the text of the lowest crate, and its words, and goes on as `program` says.
"""
import os
import pathlib
import re
import shutil
import subprocess
import time
from concurrent.futures import ProcessPoolExecutor
from functools import partial

from parts.frame import PARTS, ROOT as HERE, command_of, fits, temporary, write

COST = "24 minutes on two cores, and 5.5 GB of disk"
USAGE = "usage: tscache replay FILE, run FILE or check FILE LOG\n"
UNPROVED = f"tscache: this program is not proved; ./tscache prove proves and builds it ({COST})\n"
BUILDING = "tscache: building once, about a minute\n"
NO_RT = "tscache: the Rattle toolchain is missing: its command rt is not on the PATH\n"
NOTHING = "tscache: nothing has changed since the program was proved and built\n"
LOST, NONE = "tscache: cannot read %s: %s\n", "No such file or directory"
COMMANDS = ["replay FILE", "run FILE", "check FILE LOG", "version", "help [COMMAND]"]
FLAGS = ["-h, --help", "-V, --version", "--"]
FILES = {"replay": " FILE", "run": " FILE", "check": " FILE LOG", "prove": ""}
REPLAY, LOW = ["replay", "trace"], "root/crates/low/src/lib.rt"
KIT = f"{PARTS}/test/kit"
LOG, MODULE = (pathlib.Path(f"{KIT}/{it}").read_text() for it in ("log", "module.ll"))
COPIED = ["tscache", "packaging/words.sh", "packaging/build.sh", "scripts/build", "scripts/parts/frame.py"]
COPIED += ["scripts/parts/build/unproved.py"]
CRATES = "# a comment: none\nlow: std\nmid may_wait=1: low # aside\naside: low\ntscache: mid\nlate: tscache\n"
SOURCES = [f"crates/{it}/src/lib.rt" for it in ("low", "mid", "aside", "tscache", "late")]
SOURCES += ["crates/low/specs/Low.antt", "crates/low/proofs/lowest/Answers.antt"]
NAMES = ["trace", "log", "a b'\"$x*\n=é", "--", "-x", "-", "-h", "--help"]
BUILT = {it + end for it in ("tscache.proved", "tscache.unproved") for end in ("", ".stamp")}
# What a launcher with few commands is left.
FEW = "sh awk sed find sort xargs cksum readlink cat head mkdir grep rm python3 rt".split()


def same(got, wanted):
    assert fits(got, wanted), f"{got!r}, and not {wanted!r}"


def any_text(text):
    return re.compile(text, re.S)


def told_first(how):
    """What the launcher tells before a program answers."""
    return {"new": BUILDING + UNPROVED, "unproved": UNPROVED, "proved": ""}[how]


def answer(how, words=REPLAY, source="one"):
    """The program's first line."""
    return f"{'unproved' if how == 'new' else how} from {source}: {' '.join(words)}\n"


class Place:
    """The repository, the kit, what tells it what to do, and a folder to call from."""

    def __init__(self, room, name):
        self.room, self.started = f"{room}/{name}", []
        folders = ("a root", "told", "bin", "here", "temporary", "kit")
        self.root, self.told, self.bin, self.here, self.temporary, self.kit = (f"{self.room}/{it}" for it in folders)
        self.out, self.launcher = f"{self.root}/crates/tscache/out", f"{self.root}/tscache"
        for it in (self.bin, self.temporary, f"{self.kit}/c"):
            os.makedirs(it)
        for it in COPIED:
            os.makedirs(os.path.dirname(f"{self.root}/{it}"), exist_ok=True)
            shutil.copy(f"{HERE}/{it}", f"{self.root}/{it}")
        told = {"kit": "kit-1\n", "fails": "", "log": LOG, "program": "exit 3\n", "calls": "", "module": MODULE}
        files = {f"told/{it}": text for it, text in told.items()} | {f"root/{it}": "one" for it in SOURCES}
        files |= {f"here/{it}": "the file" for it in NAMES} | {"root/VERSION": "0.2.1\n", "root/crates.txt": CRATES}
        for it, text in files.items():
            self.write(it, text)
        for it in ("bin/rt", "bin/rtlib.py", "bin/rattle", "bin/rattle-link", "toolchain/bin/clang"):
            path = f"{KIT}/{os.path.basename(it)}"
            self.command(f"kit/{it}", pathlib.Path(path).read_text() if os.path.exists(path) else "")
        os.symlink(f"{self.kit}/bin/rt", f"{self.bin}/rt")
        self.env = {"PATH": f"{self.bin}:{os.environ['PATH']}", "TOLD": self.told, "TMPDIR": self.temporary}
        self.env.update({"ROOT": self.root, "KIT": self.kit})

    def path(self, name):
        return os.path.join(self.room, re.sub("^root/", "a root/", name))

    def write(self, name, text):
        write(self.path(name), text)

    def command(self, name, text):
        command_of(self.path(name), text)

    def read(self, name):
        try:
            return pathlib.Path(self.path(name)).read_text(errors="surrogateescape")
        except OSError:
            return None

    def remove(self, *names):
        for path in map(self.path, names):
            shutil.rmtree(path) if os.path.isdir(path) and not os.path.islink(path) else os.remove(path)

    def start(self, *words, launcher=None, **how):
        how = {"cwd": self.here, "env": self.env, "stdin": subprocess.DEVNULL, "stdout": subprocess.PIPE, "stderr": subprocess.PIPE, **how}
        self.started.append(subprocess.Popen([launcher or self.launcher, *words], **how))
        return self.started[-1]

    def end(self):
        """Ends what a case that failed has left."""
        for it in ("sleeps", "proving"):
            pathlib.Path(f"{self.told}/{it}").unlink(missing_ok=True)
        for it in self.started:
            if it.poll() is None:
                it.kill()

    def ended(self, it, given=None, seconds=60):
        """Returns the status, standard output and standard error of what was started."""
        told = it.communicate(None if given is None else given.encode(), timeout=seconds)
        return it.returncode, *((text or b"").decode(errors="surrogateescape") for text in told)

    def call(self, *words, given=None, **how):
        return self.ended(self.start(*words, **({"stdin": subprocess.PIPE} if given is not None else {}), **how), given)

    def shell(self, text, shell="sh"):
        """Calls the launcher as `$0` within a line of a shell."""
        return self.call("-c", text, self.launcher, launcher=shell)

    def until(self, holds):
        for _ in range(1500):
            if holds():
                return
            time.sleep(0.02)
        raise AssertionError("what was waited for did not come")

    def sleeping(self):
        """Waits until the kit or the program sleeps."""
        self.until(lambda: (self.read("told/pid") or "").endswith("\n"))

    def gone(self):
        """That what slept is there no more."""
        stat = f"/proc/{int(self.read('told/pid'))}/stat"
        self.until(lambda: " Z " in (self.read(stat) or " Z "))

    def rests(self):
        """That nothing is left of trials, and no build is half done."""
        built = os.listdir(self.out) if os.path.isdir(self.out) else []
        same((os.listdir(self.temporary), set(built) - BUILT - {"tscache", "tscache.stamp", "tscache.log"}), ([], set()))

    def built(self, how):
        """Builds a program, where it isn't `new`, and returns what stands there then."""
        self.write("told/program", "exit 3\n")
        if how != "new":
            same(self.call(*(["prove"] if how == "proved" else REPLAY))[0], 0 if how == "proved" else 3)
            same(self.answers(), f"{how} from one")
        self.write("told/calls", "")
        return self.there()

    def there(self):
        return {it: self.read(f"{self.out}/{it}") for it in BUILT}

    def answers(self):
        """What answers, and of which source it was built."""
        return self.call(*REPLAY)[1].partition(":")[0]

    def calls(self):
        return self.read("told/calls").splitlines()

    def without(self, *names):
        """Leaves commands out of the PATH."""
        os.mkdir(f"{self.room}/few")
        for it in set(FEW) - set(names):
            os.symlink(f"{self.bin}/rt" if it == "rt" else shutil.which(it), f"{self.room}/few/{it}")
        self.env["PATH"] = f"{self.room}/few"


CASES = []


def case(finds, *rows):
    """Makes a case of a function, or one of each row of what it takes."""

    def of(function):
        for it in rows or [()]:
            parts = (" ".join(map(str, part)) if isinstance(part, list) else str(part) for part in it[:3] if not callable(part))
            name = ", ".join(part.partition("\n")[0][:90] for part in parts)
            CASES.append((": ".join(filter(None, [finds, name])), lambda place, row=it: function(place, *row)))

    return of


def not_run(what):
    """Says what a case leaves out, in one piece, since several are played at one time."""
    os.write(1, f"not run: {what}\n".encode())


def shown(told):
    """The commands and flags that a help lists."""
    return re.findall(r"^    (\S.*?)  +\S", told, re.M)


def statuses(told):
    return [int(it) for it in re.findall(r"^    (\d+)  \w", told, re.M)]


def fault(room, number):
    """Plays one case in a folder of its own, and returns why it failed."""
    place = Place(room, str(number))
    try:
        CASES[number][1](place)
    except Exception as error:
        return f"{type(error).__name__}: {error}"
    finally:
        place.end()


def words_of_cases(parser):
    parser.add_argument("word", nargs="*", help="play those cases alone whose names have one of these")


def play(cases, given):
    """Plays the cases, four at a time. Those that wait long come first, so that none waits for them."""
    numbers = [it for it, (name, _) in enumerate(CASES) if not given.word or any(word in name for word in given.word)]
    numbers.sort(key=lambda it: "seconds" not in CASES[it][0])
    # (processes and not threads: what one thread forks would hold the launcher that another is just writing)
    with temporary() as room, ProcessPoolExecutor(4) as pool:
        for number, why in zip(numbers, pool.map(partial(fault, room), numbers)):
            cases.expect(ascii(CASES[number][0])[1:-1], why, None)
