"""What the tests of a release have in common."""
import hashlib
import os
import re
import stat

from parts import frame
from parts.frame import ROOT as HERE, Cases, outcome as run, read, text_at as text_of
from parts.repository import number_of

TESTS = os.path.dirname(os.path.realpath(__file__))
STRICT = ["-Wall", "-Wextra", "-Werror"]
# What finds fault with a header too, in both languages and in C++ alone.
STRICTEST = [*STRICT, "-pedantic", "-Wconversion", "-Wsign-conversion", "-Wshadow", "-Wcast-qual"]
CPP_STRICTEST = [*STRICTEST, "-Wold-style-cast", "-Wzero-as-null-pointer-constant"]
# The files of a release that run, and its link.
RUNS = ["bin/tscache", "install.sh", "libexec/tscache/tscache", "uninstall.sh"]
LINK = "lib/libtscache.so"
# Those that are compiled.
BUILT_FILES = ["libexec/tscache/tscache", "lib/libtscache.a", "lib/libtscache.so.0"]
PROVED = "The timestamp cache, proved"
UNPROVED = "The timestamp cache, built without proofs, for tests alone"


def write(path, text, mode=0o755):
    frame.write(path, text, mode)


def append(path, text):
    with open(path, "a") as file:
        file.write(text)


def files_below(top):
    found = (os.path.join(at, it) for at, _, names in os.walk(top) for it in names)
    return sorted(os.path.relpath(it, top) for it in found)


def tree(top):
    """What each file below a folder is: a link to somewhere, or its bytes and mode."""
    found = {}
    for it in files_below(top):
        path = f"{top}/{it}"
        if os.path.islink(path):
            found[it] = os.readlink(path)
        else:
            found[it] = hashlib.sha256(read(path)).hexdigest(), mode_of(path)
    return found


def mode_of(path):
    return stat.S_IMODE(os.lstat(path).st_mode)


def found_in(prefix):
    """An environment where pkg-config and the loader look below a prefix."""
    places = {"PKG_CONFIG_PATH": f"{prefix}/lib/pkgconfig", "LD_LIBRARY_PATH": f"{prefix}/lib"}
    return {**os.environ, **places}


def needed(program):
    """Whether a program asks for the shared library."""
    told = run("readelf", "-dW", program)[1]
    return "libtscache.so.0" in re.findall(r"\(NEEDED\).*\[(.*)\]", told)
