"""Builds the library for C, and puts all that a program needs into a folder.

OUT gets both forms of the library, and what finds them:

    libtscache.a                     the archive
    libtscache.so.0, libtscache.so   the shared library, and the link by which it is found
    tscache.h                        the header
    tscache.pc, tscache-shared.pc    the flags for pkg-config

`cc use.c -IOUT OUT/libtscache.a` links the archive, and so does what `pkg-config` says of
`tscache`. `-LOUT -ltscache` takes the shared library, as linkers do where both are in one folder,
and `-static` the archive; of `tscache-shared` pkg-config says the same. The archive has the kit's
few lines over `malloc`, `realloc` and `free` in it. Both show the names of `tscache.h` alone, and
take from others what libc has.

All code of the cache is one section that begins 16 bytes behind a multiple of 64, so that it lies
alike against the processor's blocks and lines in whatever program it is linked into (a linker
that leaves unused sections out would move the rest); a program has all of it, some 280 kB. Of
four places this one was measured as the quickest.

What `tsc_built` tells is a file of its own, which is written here: the version, the checkout's
commit (with `-dirty` behind it where files differ from that, and `unknown` where there is none),
the kit, and whether all was proved.
"""
import json
import os
import re
import shutil
import subprocess
import sys

from parts.builds import UNPROVED
from parts.frame import ROOT, Fault, call, kit, outcome, say, temporary, text_of, told_by, write
from parts.repository import files, filled, version

DESCRIPTIONS = {
    True: "The timestamp cache, proved",
    False: "The timestamp cache, built without proofs, for tests alone",
}
IN_ONE_PIECE = "SECTIONS { .text : ALIGN(64) { . = . + 16; *(.text .text.*) } }\n"
ARCHIVE, SHARED, LINK = "libtscache.a", "libtscache.so.0", "libtscache.so"
# How each form is linked, by the name that pkg-config is asked for.
FORMS = {"tscache": f"-l:{ARCHIVE}", "tscache-shared": "-ltscache"}
# What `tsc_built` tells, in the header's own type.
TYPE = re.compile(r"typedef struct \{[^}]*\} tsc_build;")
BUILT = """#define bool _Bool
%(type)s
static const tsc_build built = {%(version)s, %(commit)s, %(kit)s, %(proved)d};
const tsc_build *tsc_built(void);
const tsc_build *tsc_built(void) { return &built; }
"""
TARGET = ["--target=x86_64-unknown-linux-gnu", "-march=x86-64-v2", "--no-default-config"]
COMPILE = [*TARGET, "-O2", "-fPIC", "-c"]
LINKED = "-shared -Bsymbolic --build-id --no-undefined -z text -z relro -z now".split()
DIRTY, UNKNOWN = "-dirty", "unknown"


def git(*words):
    """Returns what git tells of this folder, or nothing where it fails or is missing."""
    others = ("GIT_DIR", "GIT_WORK_TREE", "GIT_INDEX_FILE")
    env = {name: value for name, value in os.environ.items() if name not in others}
    status, told = outcome("git", "-C", ROOT, *words, env=env, stderr=subprocess.DEVNULL)
    return "" if status else told.strip()


def commit_of():
    """Returns the checkout's commit, with a mark where files differ from it."""
    top, _, commit = git("rev-parse", "--show-toplevel", "HEAD").partition("\n")
    # (sources that lie in somebody else's repository are not its commit)
    if not commit or os.path.realpath(top) != ROOT:
        return UNKNOWN
    changed = git("status", "--porcelain", "--untracked-files=no")
    added = git("ls-files", "--others", "--exclude-standard", "crates", "include")
    return commit + (DIRTY if changed or added else "")


def still(commit):
    """Returns a commit that was read before the build, with the mark where it is another now."""
    return commit if commit == commit_of() or commit.endswith(DIRTY) else commit + DIRTY


def members(kit, archive, folder):
    """Takes an archive apart, and names its files."""
    os.mkdir(folder)
    call(f"{kit}/toolchain/bin/llvm-ar", "x", os.path.abspath(archive), cwd=folder)
    return [f"{folder}/{name}" for name in sorted(os.listdir(folder))]


def objects_of(kit, work, is_proved):
    """Proves the crate, and names the files of its archive; or makes an object that nobody proved.
    """
    if not is_proved:
        call(*UNPROVED, "--library", "tsc_c", f"{work}/cache.o")
        return [f"{work}/cache.o"]
    say("proving and building the library for C; docs/PROOFS.md says what that takes")
    call("rt", "lib", cwd=f"{ROOT}/crates/tsc_c")
    return members(kit, f"{ROOT}/crates/tsc_c/out/libtsc_c.a", f"{work}/cache")


def in_one_piece(kit, work, parts):
    """Joins objects to one of one section, which has no names for others but those of `tscache.h`.

    So the names of the kit's few lines over `malloc` don't meet those of another library.
    """
    write(f"{work}/in_one_piece.ld", IN_ONE_PIECE)
    # (by relative paths, so that no name of a folder gets into what is built)
    parts = [os.path.relpath(part, work) for part in parts]
    words = ["-r", "-T", "in_one_piece.ld", "-o", "joined.o", *parts]
    call(f"{kit}/toolchain/bin/ld.lld", *words, cwd=work)
    words = ["llvm-objcopy", "--wildcard", "--keep-global-symbol=tsc_*", "joined.o", "tscache.o"]
    call(*words, executable=f"{kit}/toolchain/bin/clang", cwd=work)


def what_was_built(kit, work, told):
    """Compiles what `tsc_built` tells."""
    found = TYPE.search(text_of("include/tscache.h"))
    if not found:
        raise Fault("include/tscache.h has no type tsc_build")
    told = {name: json.dumps(it) if isinstance(it, str) else it for name, it in told.items()}
    write(f"{work}/built.c", BUILT % {"type": found[0], **told})
    call(f"{kit}/toolchain/bin/clang", *COMPILE, "built.c", "-o", "built.o", cwd=work)


def join(kit, work, version):
    """Makes both forms of the library, each of the same two objects."""
    objects = ["tscache.o", "built.o"]
    call(f"{kit}/toolchain/bin/llvm-ar", "rcsD", ARCHIVE, *objects, cwd=work)
    major, minor, _ = version.split(".")
    write(f"{work}/tscache.map", filled("tscache.map", major=major, minor=minor))
    words = ["-soname", SHARED, "--version-script=tscache.map", "-o", SHARED, *objects]
    libc = f"{kit}/toolchain/lib/libc.so.6"
    call(f"{kit}/toolchain/bin/ld.lld", *LINKED, *words, libc, cwd=work)
    os.symlink(SHARED, f"{work}/{LINK}")


def put(work, names, out):
    """Puts files into a folder, where each is seen once all of them are complete."""
    parts = {f"{out}/{name}.part": f"{out}/{name}" for name in names}
    try:
        for name, part in zip(names, parts):
            if os.path.lexists(part):
                os.remove(part)
            if os.path.islink(f"{work}/{name}"):
                os.symlink(os.readlink(f"{work}/{name}"), part)
            else:
                shutil.copyfile(f"{work}/{name}", part)
        for part, name in parts.items():
            os.replace(part, name)
    finally:
        for part in parts:
            if os.path.lexists(part):
                os.remove(part)


def arguments(parser):
    parser.add_argument("--unproved", action="store_true", help="build without proofs, for tests alone")
    parser.add_argument("out", metavar="OUT", help="the folder")


def main(given):
    is_proved, out, folder = not given.unproved, os.path.abspath(given.out), kit()
    number, commit, told = version(), commit_of(), told_by("rt", "version")
    os.makedirs(out, exist_ok=True)
    with temporary() as work:
        heap = members(folder, f"{folder}/c/liblibc_c.a", f"{work}/heap")
        in_one_piece(folder, work, objects_of(folder, work, is_proved) + heap)
        built = {"version": number, "commit": still(commit), "kit": told, "proved": is_proved}
        what_was_built(folder, work, built)
        join(folder, work, number)
        headers = [os.path.basename(path) for path in files("include/*.h*")]
        for name in headers:
            shutil.copyfile(f"{ROOT}/include/{name}", f"{work}/{name}")
        here = {"libdir": "${pcfiledir}", "includedir": "${pcfiledir}", "version": number}
        for name, libs in FORMS.items():
            words = {"name": name, "description": DESCRIPTIONS[is_proved], "libs": libs}
            write(f"{work}/{name}.pc", filled("tscache.pc", **here, **words))
        put(work, [ARCHIVE, SHARED, LINK, *headers, *(f"{name}.pc" for name in FORMS)], out)
    for form in (ARCHIVE, SHARED):
        how = "proved and built" if is_proved else "built without proofs, for tests alone"
        print(f"{out}/{form}: {how}", file=sys.stderr)
