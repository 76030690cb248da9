"""Tests a release that is built without proofs: its files, its bytes, its installation, its use.

In a clone `scripts/build release --unproved` makes one. Where --built names a folder with `tscache`
and `library` of the same sources without proofs, the bytes have to be the same. What is compiled is
kept, and further releases are made of that: a second one, one that calls itself proved, and some
whose checkout changes meanwhile.

The release is installed into temporary folders, and removed again. There programs in C and C++
find both forms of the library by `pkg-config` and by CMake, and those in Rust and Go as
docs/BUILDING.md says. The Debian package is installed below a folder of its own, and purged. The
cases are in `packaging/tests`.
"""
import hashlib
import os
import shlex
import sys

from parts.frame import ROOT, Fault, needs_rt, outcome, read, say, temporary, write
from parts.repository import version

sys.path.insert(0, f"{ROOT}/packaging/tests")

from archive import built, entries, same_bytes
from debian import debian
from installing import install, install_from_a_checkout, links, refused_installations
from installing import staged, uninstall, upgrade
from linking import another_series, c_programs, cmake_programs, documented, headers, names
from linking import rust, the_program, threads, versions
from remaking import KEEPING, changed_meanwhile, clone_of, commits, library_folder, other_clone
from remaking import packed_elsewhere, stand_in


def first_release(cases, work):
    """Makes a release in a clone, and returns the clone, what was made, and the release's name."""
    clone, out = f"{work}/a clone", f"{work}/out"
    clone_of(ROOT, clone)
    write(f"{clone}/new", "")
    told = "build release: the checkout is not clean: commit what has changed, or put it aside\n"
    status = outcome("scripts/build", "release", "--unproved", out, cwd=clone)
    cases.expect("a checkout that is not clean", status, (70, told))
    os.remove(f"{clone}/new")
    cases.expect("wrong words", outcome("scripts/build", "release", "--proved", cwd=clone)[0], 2)
    stand_in(clone, {"scripts/build": KEEPING})
    os.mkdir(f"{work}/kept")
    env = {**os.environ, "KEEP": f"{work}/kept"}
    status, told = outcome("scripts/build", "release", "--unproved", out, cwd=clone, env=env)
    cases.expect("a release is made", (status, told if status else ""), (0, ""))
    if status:
        raise Fault("no release was made", 1)
    name = f"tscache-{version()}-x86_64-linux-unproved"
    lines = told.splitlines()
    cases.expect("what is told first", lines[0], f"build release: making {name}.tar.gz")
    made = [f"{out}/{name}.tar.gz"]
    if cases.has("dpkg-deb", "the making of a Debian package"):
        made.append(f"{out}/tscache_{version()}~unproved_amd64.deb")
    sums = [f"{path}: {hashlib.sha256(read(path)).hexdigest()}" for path in made]
    cases.expect("what is told last", lines[-len(made) :], sums)
    found = sorted(os.listdir(out))
    cases.expect("there is nothing beside it", [f"{out}/{it}" for it in found], made)
    status = outcome("git", "status", "--porcelain", cwd=clone)
    cases.expect("the checkout stays clean", status, (0, ""))
    return clone, made, name


def try_all(cases, work, beside):
    clone, made, name = first_release(cases, work)
    commit = entries(cases, clone, made[0], name)
    # (as somebody unpacks it whose files are nobody else's business)
    unpack = f"umask 077; tar --no-same-permissions -xzf {shlex.quote(made[0])}"
    outcome("sh", "-c", unpack, cwd=work)
    top = f"{work}/{name}"
    built(cases, top, commit, False)
    same_bytes(cases, top, beside)
    other, env = other_clone(work, clone)
    env["COMMIT"] = commit
    packed_elsewhere(cases, work, other, env, made, name, commit)
    changed_meanwhile(cases, work, other, env)
    library_folder(cases, work, other, env)
    commits(cases, work, other, env)
    refused_installations(cases, work, top)
    prefix = install(cases, work, top)
    staged(cases, work, top, prefix)
    uninstall(cases, work, top)
    upgrade(cases, work, top, prefix)
    install_from_a_checkout(cases, work, other, env, prefix)
    links(cases, "an archive", top)
    links(cases, "an installation", prefix)
    versions(cases, version(), prefix)
    headers(cases, work, prefix)
    c_programs(cases, work, version(), prefix)
    cmake_programs(cases, work, version(), prefix)
    another_series(cases, work, prefix)
    the_program(cases, prefix)
    rust(cases, work, prefix)
    documented(cases, work, prefix)
    names(cases, work, prefix)
    threads(cases, work, prefix)
    debian(cases, work, top, made[-1], version())
    got = outcome(f"{prefix}/share/tscache/uninstall.sh")[0], os.path.exists(prefix)
    cases.expect("the removal of all", got, (0, False))


def arguments(parser):
    parser.add_argument("--built", metavar="FOLDER", help="what was built elsewhere without proofs")


def run(cases, given):
    needs_rt()
    say("making a release without proofs, which takes some minutes")
    for name in ("PREFIX", "DESTDIR"):
        os.environ.pop(name, None)
    with temporary() as work:
        try_all(cases, work, os.path.abspath(given.built) if given.built else None)
