"""What parts build before they test or measure it, and take from one another."""
import os

from parts.frame import ROOT, SCRIPTS, call, needs_rt, read, write

FORMS = {True: ["--unproved"], False: []}
UNPROVED = [f"{SCRIPTS}/build", "unproved"]


def words_of(parser):
    """Adds the words that say how things are built, and where they lie."""
    parser.add_argument("--unproved", action="store_true", help="build without proofs, in a minute each, for tests alone")
    parser.add_argument("--built", metavar="FOLDER", help="take what is built from there, and leave there what is built")


def copy(path, to):
    """Copies a file that runs, which is seen once it is complete."""
    write(f"{to}.part", read(path), 0o755)
    os.replace(f"{to}.part", to)
    return to


class Builds:
    """Programs, tests of crates and the library for C, each built once, in a folder."""

    def __init__(self, given, work):
        self.is_proved = not given.unproved
        self.folder = os.path.abspath(given.built or work)
        os.makedirs(self.folder, exist_ok=True)

    def made(self, name, make):
        """Returns the path of something, which it makes where it is not there."""
        path = f"{self.folder}/{name}"
        if not os.path.exists(path):
            needs_rt()
            make(path)
        return path

    def program(self, name="tscache", *words):
        """Returns the path of a program. One other than `tscache` is run once with these words."""
        def make(path):
            if not self.is_proved:
                call(*UNPROVED, name, path)
                return
            if name == "tscache":
                call(f"{ROOT}/tscache", "prove")
            else:
                call("rt", "run", "--", *words, cwd=f"{ROOT}/crates/{name}")
            copy(f"{ROOT}/crates/{name}/out/{name}", path)

        return self.made(name, make)

    def tests(self, crate):
        """Returns the path of the program of a crate's tests."""
        def make(path):
            if self.is_proved:
                call("rt", "test", cwd=f"{ROOT}/crates/{crate}")
                copy(f"{ROOT}/crates/{crate}/out/{crate}_tests", path)
            else:
                call(*UNPROVED, "--test", crate, path)

        return self.made(crate, make)

    def library(self):
        """Returns the folder of the library for C."""
        def make(path):
            call(f"{SCRIPTS}/build", "library", *FORMS[not self.is_proved], path)

        return self.made("library", make)


def preloaded(work, source):
    """Compiles what stands before the C library's calls, and returns its path."""
    out = f"{work}/{os.path.basename(source)[:-2]}.so"
    call("cc", "-shared", "-fPIC", "-O1", "-pthread", "-o", out, source, "-ldl")
    return out
