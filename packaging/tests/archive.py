"""What a release has in it, and its bytes."""
import hashlib
import os
import re
import tarfile
import tempfile

from parts.measure.gate import measured

from cases import BUILT_FILES, HERE, LINK, RUNS, STRICT
from cases import files_below, read, run, text_of, write

# What a release has beside the committed documents, bindings, examples and headers.
FIXED = """
BUILT LICENSE README.md install.sh uninstall.sh bin/tscache libexec/tscache/built
libexec/tscache/tscache libexec/tscache/words.sh lib/libtscache.a lib/libtscache.so
lib/libtscache.so.0 lib/pkgconfig/tscache-shared.pc lib/pkgconfig/tscache.pc
lib/cmake/tscache/tscache-config-version.cmake lib/cmake/tscache/tscache-config.cmake
share/bash-completion/completions/tscache share/man/man1/tscache.1 share/tscache/tsan.supp
share/zsh/site-functions/_tscache
""".split()
TEXTS = ["README.md", "LICENSE", "CHANGELOG.md", "CONTRIBUTING.md", "VERSION"]
# What `tsc_built` tells.
TELL_BUILT = """#include <stdio.h>
#include <tscache.h>
int main(void)
{
    const tsc_build *it = tsc_built();
    printf("%s|%s|%s|%s\\n", it->version, it->commit, it->kit, it->proved ? "proved" : "unproved");
    return 0;
}
"""


def place_of(name):
    """Where a release has what is committed."""
    if name.startswith("include/"):
        return name
    is_code = name.startswith(("bindings/", "examples/"))
    return f"share/tscache/{name}" if is_code else f"share/doc/tscache/{name}"


def entries(cases, clone, archive, name):
    """What the archive has, by its names, owners and times."""
    commit = run("git", "log", "-1", "--format=%H %ct", cwd=clone)[1].split()
    with tarfile.open(archive) as it:
        members = it.getmembers()
    words = ["git", "ls-files", "bindings", "docs", "examples", "include", *TEXTS]
    committed = run(*words, cwd=clone)[1].splitlines()
    places = [place_of(it) for it in committed if not it.endswith("/.gitignore")]
    wanted = sorted(f"{name}/{it}" for it in FIXED + places)
    cases.expect("its files, in their order", [it.name for it in members], wanted)
    kinds = {(it.uid, it.gid, it.uname, it.gname, it.mtime) for it in members}
    wanted = {(0, 0, "", "", int(commit[1]))}
    cases.expect("they have no owner, and the time of the commit", kinds, wanted)
    links = [(it.name, it.linkname) for it in members if it.issym()]
    cases.expect("one is a link", links, [(f"{name}/{LINK}", "libtscache.so.0")])
    files = [it for it in members if not it.issym()]
    cases.expect("the others are files", {it.isfile() for it in files}, {True})
    runs = sorted(it.name for it in files if it.mode == 0o755)
    cases.expect("four of them run", runs, [f"{name}/{it}" for it in RUNS])
    cases.expect("the others don't", {it.mode for it in files if it.name not in runs}, {0o644})
    return commit[0]


def built(cases, top, commit, is_proved):
    """What a release tells of itself, in BUILT, by its program, and by its library."""
    text = text_of(f"{top}/BUILT")
    head, _, sums = text.partition("\n\nSHA-256 of each file:\n")
    lines = dict(line.split(": ", 1) for line in head.splitlines()[1:])
    version = text_of(f"{HERE}/VERSION").strip()
    cases.expect("BUILT: the version", head.splitlines()[0], f"tscache {version} for x86_64-linux")
    cases.expect("BUILT: the commit", lines["commit"], commit)
    cases.expect("BUILT: the kit", lines["kit"], run("rt", "version")[1].strip())
    proved = "yes" if is_proved else "no: built without proofs, for tests alone"
    cases.expect("BUILT: whether it is proved", lines["proved"], proved)
    gate = re.compile(r"\d+ minutes on \d+ processors when last measured .*")
    cases.expect("BUILT: the gate", lines["gate"], gate)
    gate = measured(text_of(f"{HERE}/docs/PROOFS.md"))
    cases.expect("docs/PROOFS.md says so", lines["gate"].split()[0], gate.minutes)
    found = [it for it in files_below(top) if it != "BUILT"]
    wanted = "".join(f"{hashlib.sha256(read(f'{top}/{it}')).hexdigest()}  {it}\n" for it in found)
    cases.expect("BUILT: the checksums", sums, wanted)
    facts = head.replace(" for x86_64-linux", "").rpartition("\n")[0] + "\n"
    found = text_of(f"{top}/libexec/tscache/built")
    cases.expect("libexec/tscache/built has the same facts", found, facts)
    kind = "proved" if is_proved else "unproved"
    wanted = f"{version}|{commit}|{lines['kit']}|{kind}\n"
    told_by_library(cases, kind, f"{top}/include", f"{top}/lib", wanted)


def told_by_library(cases, what, include, lib, wanted):
    """Wants tsc_built to tell this in both forms of a library."""
    source = f"{lib}-built.c"
    write(source, TELL_BUILT)
    archive, shared = [f"{lib}/libtscache.a"], [f"-L{lib}", "-ltscache"]
    for form, words in (("the archive", archive), ("the shared library", shared)):
        flags = ["-std=c11", *STRICT, f"-I{include}", source, *words, "-o", f"{source}.out"]
        told = run("gcc", *flags)
        if told == (0, ""):
            told = run(f"{source}.out", env={**os.environ, "LD_LIBRARY_PATH": lib})
        cases.expect(f"what tsc_built tells, {what}, in {form}", told, (0, wanted))


def members_of(archive):
    """The time, owner, group and mode of each member of an archive, by its name, and the bytes."""
    content, at, found = read(archive), 8, {}
    while at < len(content):
        head = content[at : at + 60].decode()
        size = int(head[48:58])
        fields = head[:16].strip(), head[16:28], head[28:34], head[34:40], head[40:48]
        name, *numbers = (it.strip() for it in fields)
        found[name.rstrip("/")] = numbers, content[at + 60 : at + 60 + size]
        at += 60 + size + size % 2
    return found


def same_bytes(cases, top, other):
    """What was built elsewhere from the same sources is the same, and names no folder."""
    is_clean = not run("git", "status", "--porcelain", cwd=HERE)[1]
    for file in BUILT_FILES:
        content = read(f"{top}/{file}")
        names = [it for it in (tempfile.gettempdir(), HERE) if it.encode() in content]
        cases.expect(f"{file} names no folder of this machine", names, [])
    found = members_of(f"{top}/lib/libtscache.a")
    numbers = {name: it[0] for name, it in found.items() if name}
    wanted = {name: ["0", "0", "0", "644"] for name in ("tscache.o", "built.o")}
    cases.expect("the archive's members have no time and no owner", numbers, wanted)
    if not other:
        print("what is built: not compared, since nothing was built elsewhere", flush=True)
        return
    for file, beside in (
        ("libexec/tscache/tscache", "tscache"),
        ("lib/libtscache.a", "library/libtscache.a"),
        ("lib/libtscache.so.0", "library/libtscache.so.0"),
    ):
        # (what tsc_built tells of a checkout that is not clean is not what it tells of a commit)
        if is_clean or beside == "tscache":
            same = read(f"{top}/{file}") == read(f"{other}/{beside}")
            cases.expect(f"{file} is the same, built elsewhere", same)
    same = found["tscache.o"] == members_of(f"{other}/library/libtscache.a")["tscache.o"]
    cases.expect("the cache's object is the same, built elsewhere", same)
