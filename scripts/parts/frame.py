"""What the parts of `scripts/` share: their words and help, their cases, what they run."""
import argparse
import errno
import importlib
import os
import re
import shutil
import signal
import subprocess
import sys
import tempfile

PARTS = os.path.dirname(os.path.realpath(__file__))
SCRIPTS = os.path.dirname(PARTS)
ROOT = os.path.dirname(SCRIPTS)
WRONG_WORDS, FAILED, NO_ROOM, MISSING = 2, 70, 74, 127
NO_RT = "the Rattle toolchain is missing: its command rt is not on the PATH"
COUNTS = re.compile(r"(\d+) passed, (\d+) failed")
# How many seconds a command may take, on a machine with much else to do.
SECONDS = 3600
# What this process is called, by its command and its part.
name = "scripts"


class Fault(Exception):
    """Why a part ends, and the status that says so."""

    def __init__(self, why, status=FAILED):
        super().__init__(why)
        self.status = NO_ROOM if os.strerror(errno.ENOSPC) in str(why) else status


def say(what):
    print(f"{name}: {what}", file=sys.stderr, flush=True)


# ---- files


def read(path):
    with open(path, "rb") as file:
        return file.read()


def text_of(path):
    """Returns the text of a file, which is named from the top of the repository."""
    return read(os.path.join(ROOT, path)).decode()


def text_at(path):
    """Returns the text of a file, which is named from where this was called."""
    return read(path).decode()


def write(path, text, mode=0o644):
    """Writes a file, and makes its folder."""
    os.makedirs(os.path.dirname(path) or ".", exist_ok=True)
    with open(path, "wb") as file:
        file.write(text if isinstance(text, bytes) else text.encode())
    os.chmod(path, mode)


def command_of(path, text):
    """Writes a file that runs."""
    write(path, text, 0o755)


def temporary():
    """A temporary folder, which is removed also where the part is interrupted."""
    return tempfile.TemporaryDirectory(prefix="tscache-")


# ---- commands


def outcome(*words, seconds=SECONDS, **how):
    """Returns the status of a command and what it told, both streams in one.

    A command that takes too long has no status. Then it is killed with all that it started, as it
    is where this process is told to end.
    """
    how = {"stdin": subprocess.DEVNULL, "stdout": subprocess.PIPE, "stderr": subprocess.STDOUT, **how}
    given = how.pop("input", None)
    if given is not None:
        how["stdin"] = subprocess.PIPE
    how = {"text": True, "errors": "replace", "start_new_session": True, **how}
    try:
        running = subprocess.Popen(words, **how)
    except OSError as fault:
        return MISSING, f"{fault.filename}: {fault.strerror}\n"
    with running:
        try:
            told = running.communicate(given, seconds)[0]
        except BaseException as fault:
            # (before the command is waited for, so that its number is no other's)
            os.killpg(running.pid, signal.SIGKILL)
            if not isinstance(fault, subprocess.TimeoutExpired):
                raise
            return None, f"{words[0]} took more than {seconds} seconds\n"
    return running.returncode, told


def call(*words, **how):
    """Runs a command that has to end well. What it tells goes to standard error."""
    how = {"stdin": subprocess.DEVNULL, "stdout": sys.stderr, "cwd": ROOT, **how}
    try:
        status = subprocess.run(words, **how).returncode
    except OSError as fault:
        raise Fault(f"{fault.filename}: {fault.strerror}") from None
    if status:
        raise Fault(f"{' '.join(words[:2])} failed with status {status}", max(status, 1))


def told_by(*words, **how):
    """Returns what a command prints, which has to end well."""
    status, told = outcome(*words, **{"cwd": ROOT, "stderr": subprocess.PIPE, **how})
    if status:
        raise Fault(f"{' '.join(words[:2])} failed: {told.strip()}")
    return told.strip()


def needs_rt():
    if not shutil.which("rt"):
        raise Fault(NO_RT, MISSING)


def kit():
    """Returns the kit's folder."""
    needs_rt()
    told = told_by("rt", "doc").split()
    if not told:
        raise Fault("rt doc doesn't tell where the kit is")
    return os.path.dirname(told[-1])


# ---- cases


def fits(got, wanted):
    """Whether a value is what is wanted, of which any text may be a pattern."""
    if isinstance(wanted, re.Pattern):
        return isinstance(got, str) and bool(wanted.fullmatch(got))
    if isinstance(wanted, (tuple, list)) and type(got) is type(wanted):
        return len(got) == len(wanted) and all(map(fits, got, wanted))
    return bool(got == wanted)


class Cases:
    """Counts what holds and what doesn't, and names what is not run. Checks name only what fails.
    """

    def __init__(self, names_all=True):
        self.passed = self.failed = 0
        self.names_all = names_all
        self.missing = []

    def expect(self, what, got, wanted=True, told=""):
        """Wants a value, or one that `fits`. Where it is another, it prints what was told."""
        holds = fits(got, wanted)
        self.passed += holds
        self.failed += not holds
        if not holds:
            why = "" if wanted is True else f": {got!r:.2000}, and not {wanted!r:.2000}"
            print(*filter(None, [str(told).rstrip(), f"FAILED: {what}{why}"]), sep="\n", flush=True)
        elif self.names_all:
            print(f"passed: {what}", flush=True)
        return holds

    def looked_at(self, things, what):
        """Says how many things were looked at. There has to be one."""
        print(f"{len(things)} {what}", flush=True)
        if not things:
            self.failed += 1
            print(f"FAILED: there are no {what}", flush=True)
        return things

    def add(self, what, passed, failed, least=1, told=""):
        """Adds the cases of something else, of which so many have to pass."""
        if not failed and passed < least:
            print(f"{what}: {passed} passed, of {least} at the least")
            failed = 1
        if failed and told:
            print(told.rstrip())
        print(f"{what}: {passed} passed, {failed} failed", flush=True)
        self.passed += passed
        self.failed += failed

    def take(self, what, ended, least=1):
        """Adds the cases that the last line of a command counts, which has ended so."""
        status, told = ended
        last = COUNTS.fullmatch(told.strip().rpartition("\n")[2])
        passed, failed = (int(last[1]), int(last[2])) if last else (0, 1)
        self.add(what, passed, failed or int(status != 0), least, told)

    def has(self, tool, what):
        """Says whether a command is there, and remembers what is not run without it."""
        if not shutil.which(tool):
            self.not_run(f"{what}: {tool} is missing")
        return bool(shutil.which(tool))

    def not_run(self, what):
        self.missing.append(f"not run: {what}")

    def end(self):
        """Prints what was not run, and the counts, and returns a status."""
        print(*self.missing, f"{self.passed} passed, {self.failed} failed", sep="\n", flush=True)
        return int(self.failed > 0)


# ---- parts


def parts_of(kind):
    """Returns the parts of a command, each with the first line of its help."""
    found = {}
    for path in sorted(os.listdir(f"{PARTS}/{kind}")):
        if path.endswith(".py"):
            first = re.search(r'"""(.*)', text_of(f"{PARTS}/{kind}/{path}"))
            found[path[: -len(".py")].replace("_", "-")] = first[1].strip("\"") if first else ""
    return found


def module_of(kind, part):
    return importlib.import_module(f"parts.{kind}.{part.replace('-', '_')}")


def parse(kind, part, module, words):
    """Returns what the words of a part say. Wrong ones end the process."""
    how = argparse.RawDescriptionHelpFormatter
    parser = argparse.ArgumentParser(f"scripts/{kind} {part}", description=module.__doc__, formatter_class=how)
    getattr(module, "arguments", lambda _: None)(parser)
    return parser.parse_args(words)


def run_all(kind, parts):
    """Runs each part that needs no words, and adds what they count."""
    passed = failed = 0
    for part in parts:
        module = module_of(kind, part)
        if getattr(module, "IS_ALONE", True):
            print(f"== {kind} {part}", flush=True)
            status, told = outcome(f"{SCRIPTS}/{kind}", part)
            print(told, end="", flush=True)
            last = COUNTS.fullmatch(told.rstrip().rpartition("\n")[2])
            passed += int(last[1]) if last else 0
            failed += int(last[2]) or int(status != 0) if last else 1
    print(f"{passed} passed, {failed} failed")
    return int(failed > 0)


def run_part(kind, part, words):
    """Runs a part, and returns its status.

    A module of cases has `run`, which gets these and the words; another one has `main`.
    """
    global name
    name = f"{kind} {part}"
    module = module_of(kind, part)
    given = parse(kind, part, module, words)
    # (so that folders are removed, and what was started ends)
    for it in (signal.SIGTERM, signal.SIGHUP, signal.SIGINT):
        signal.signal(it, lambda number, _: sys.exit(128 + number))
    # (a shell starts a job with this ignored, and so would be what a part starts)
    signal.signal(signal.SIGQUIT, signal.SIG_DFL)
    cases = Cases(kind != "check") if hasattr(module, "run") else None
    try:
        if not cases:
            return module.main(given) or 0
        module.run(cases, given)
        return cases.end()
    except (Fault, OSError) as fault:
        if not isinstance(fault, Fault):
            fault = Fault(f"{fault.strerror}: {fault.filename or 'a file'}")
        say(fault)
        if cases:
            cases.failed += 1
            cases.end()
        return fault.status


def command(kind, doc, words):
    """Runs the part of a command that its words name, and returns its status."""
    parts = parts_of(kind)
    if words and words[0] in parts:
        return run_part(kind, words[0], words[1:])
    if (kind, words) == ("check", ["all"]):
        return run_all(kind, parts)
    is_asked = words in (["-h"], ["--help"])
    width = max(map(len, parts))
    lines = [f"  {part:{width}}  {what}" for part, what in parts.items()]
    told = [doc.strip(), "", f"usage: scripts/{kind} PART [WORD..]", f"       scripts/{kind} PART --help", ""]
    print(*told, *lines, sep="\n", file=sys.stdout if is_asked else sys.stderr)
    return 0 if is_asked else WRONG_WORDS
