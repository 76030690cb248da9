"""Further releases of what was compiled once, in clones where nothing is compiled anew."""
import os
import re
import shlex
import shutil

from archive import built, told_by_library
from cases import HERE, PROVED, UNPROVED
from cases import append, read, run, text_of, tree, write

CMAKE = "cmake/tscache/tscache-config.cmake"
WHO = "-c user.name=test -c user.email=test"
# Stands in for what compiles in the clone of the first release: it keeps what was compiled.
KEEPING = """#!/bin/sh
[ "$1" = unproved ] || exec "$(dirname "$0")/real-build" "$@"
"$(dirname "$0")/real-build" "$@" || exit
for out; do :; done
cp "$out" "$KEEP/"
"""
# And in the others: it takes what was kept, once a command has been run that a case may name.
KEPT = """#!/bin/sh
[ "$1" = unproved ] || exec "$(dirname "$0")/real-build" "$@"
eval "${MEANWHILE-}"
for out; do :; done
cp "$KEEP/$(basename "$out")" "$out"
"""
# And for what proves.
PROVES = """#!/bin/sh
mkdir -p crates/tscache/out && cp "$KEEP/tscache" crates/tscache/out/
"""
RT = """#!/bin/sh
[ "$1" = lib ] || exec %(rt)s "$@"
mkdir -p out && rm -f out/libtsc_c.a && ar rcsD out/libtsc_c.a "$KEEP/cache.o"
"""


def clone_of(source, folder):
    """A clone of the repository as it stands here, committed where something has changed."""
    run("git", "clone", "-q", source, folder)
    if source == HERE:
        names = run("git", "ls-files", "-z", "-co", "--exclude-standard", cwd=HERE)[1].split("\0")
        for name in names:
            if name and os.path.isfile(f"{HERE}/{name}"):
                os.makedirs(os.path.dirname(f"{folder}/{name}"), exist_ok=True)
                shutil.copy(f"{HERE}/{name}", f"{folder}/{name}")
        commit(folder)


def commit(folder):
    run("git", "add", "-A", cwd=folder)
    run("git", *WHO.split(), "commit", "-q", "-m", "as it stands", cwd=folder)


def stand_in(clone, texts):
    """Replaces committed scripts, so that git takes the clone for what it was. What `scripts/build`
    was stays beside it."""
    real = "real-build"
    append(f"{clone}/.git/info/exclude", f"{real}\n")
    shutil.copy(f"{clone}/scripts/build", f"{clone}/scripts/{real}")
    for name, text in texts.items():
        write(f"{clone}/{name}", text)
        run("git", "update-index", "--assume-unchanged", name, cwd=clone)


def other_clone(work, clone):
    """A clone where nothing is compiled anew, and the environment for it."""
    other = f"{work}/other"
    run("git", "clone", "-q", clone, other)
    stand_in(other, {"scripts/build": KEPT, "tscache": PROVES})
    write(f"{work}/bin/rt", RT % {"rt": shlex.quote(shutil.which("rt"))})
    path = f"{work}/bin:{os.environ['PATH']}"
    others = {"KEEP": f"{work}/kept", "TZ": "Asia/Tokyo", "LC_ALL": "C", "PATH": path}
    return other, {**os.environ, **others}


def packed_elsewhere(cases, work, other, env, made, name, commit):
    """A second release of the commit, with other settings; and one that calls itself proved."""
    words = "umask 077; scripts/build release --unproved ../again && scripts/build release ../proved"
    status, told = run("sh", "-c", words, cwd=other, env=env)
    cases.expect("two more releases are made", (status, told if status else ""), (0, ""))
    for path in made:
        it = os.path.basename(path)
        cases.expect(f"a second {it} is the same bytes", read(f"{work}/again/{it}") == read(path))
    proved = name.replace("-unproved", "")
    wanted = [re.sub("[~-]unproved", "", os.path.basename(it)) for it in made]
    found = sorted(os.listdir(f"{work}/proved"))
    cases.expect("those that are proved are named so", found, wanted)
    run("tar", "-xzf", f"{work}/proved/{proved}.tar.gz", "-C", work)
    built(cases, f"{work}/{proved}", commit, True)
    described = re.compile(r"^(?:Description: |# )(.*?)(?:: find_package.*)?$", re.M)
    for top, wanted in ((name, UNPROVED), (proved, PROVED)):
        for file in ("pkgconfig/tscache.pc", "pkgconfig/tscache-shared.pc", CMAKE):
            line = described.search(text_of(f"{work}/{top}/lib/{file}"))[1]
            cases.expect(f"{top}/lib/{file} says whether it is proved", line, wanted)


def changed_meanwhile(cases, work, other, env):
    """A checkout that is another one at the end of a release than it was at its beginning."""
    told = "build release: the checkout was changed meanwhile, so nothing is released"
    commit = f"git {WHO} commit -q --allow-empty -m another"
    top = shlex.quote(other)
    for what, command, back in (
        ("a file that is new", f"touch {top}/new", "rm new"),
        ("a text that is changed", f"echo >>{top}/README.md", "git checkout -q README.md"),
        ("another commit", f"cd {top} && {commit}", f"git reset -q --soft {env['COMMIT']}"),
    ):
        words = ["scripts/build", "release", "--unproved", f"{work}/none"]
        status, text = run(*words, cwd=other, env={**env, "MEANWHILE": f"({command})"})
        got = status, text.splitlines()[-1:], os.listdir(f"{work}/none")
        cases.expect(f"meanwhile, {what}", got, (70, [told], []))
        run(*back.split(), cwd=other)


def library_folder(cases, work, other, env):
    """What `scripts/build library` leaves in a folder that has files of its names."""
    out = f"{work}/library"
    headers = os.listdir(f"{other}/include")
    files = ["libtscache.a", "libtscache.so", "libtscache.so.0", "tscache-shared.pc", "tscache.pc"]
    for it in (*headers, *files, "tscache.h.part"):
        write(f"{out}/{it}", "another one\n")
    build = ["scripts/build", "library", "--unproved", out]
    with open(f"{out}/libtscache.so.0", "rb") as mapped:
        status, first = run(*build, cwd=other, env=env)[0], tree(out)
        cases.expect("what a running program has mapped stays", mapped.read(), b"another one\n")
    cases.expect(
        "what a folder of the library has", (status, sorted(first)), (0, sorted(headers + files))
    )
    for it in headers:
        same = read(f"{out}/{it}") == read(f"{other}/include/{it}")
        cases.expect(f"its {it} is that of the sources", same)
    write(f"{out}/tscache.h", "an old one\n")
    again = run(*build, cwd=other, env=env)[0], tree(out)
    cases.expect("built once more into one folder it is the same", again == (0, first))


def commits(cases, work, other, env):
    """What tsc_built tells of checkouts that are no clean ones."""
    version, kit = text_of(f"{HERE}/VERSION").strip(), run("rt", "version")[1].strip()
    commit, readme = env["COMMIT"], shlex.quote(f"{other}/README.md")
    source, theirs = f"{other}/crates/tsc_c/src/new.rt", shlex.quote(work)
    hidden = f"mv .git {shlex.quote(work)}/hidden"
    anew = f"git -C {theirs} init -q && git -C {theirs} {WHO} commit -q --allow-empty -m theirs"
    out = f"{work}/library"
    for what, before, meanwhile, after, wanted in (
        ("of a clean checkout", "", "", "", commit),
        (
            "of a changed file",
            f"echo >>{readme}",
            "",
            "git checkout -q README.md",
            f"{commit}-dirty",
        ),
        (
            "of a new source",
            f"touch {shlex.quote(source)}",
            "",
            f"rm {shlex.quote(source)}",
            f"{commit}-dirty",
        ),
        (
            "of one that changes",
            "",
            f"echo >>{readme}",
            "git checkout -q README.md",
            f"{commit}-dirty",
        ),
        ("of no repository", hidden, "", "", "unknown"),
        (
            "of somebody else's",
            anew,
            "",
            f"rm -rf {theirs}/.git && mv {theirs}/hidden .git",
            "unknown",
        ),
    ):
        run("sh", "-c", before, cwd=other)
        build = ["scripts/build", "library", "--unproved", out]
        status = run(*build, cwd=other, env={**env, "MEANWHILE": meanwhile})[0]
        line = f"{version}|{wanted}|{kit}|unproved\n" if status == 0 else status
        told_by_library(cases, what, out, out, line)
        run("sh", "-c", after, cwd=other)
