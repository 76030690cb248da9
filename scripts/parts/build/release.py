"""Makes a release of the commit that is checked out: an archive, and a Debian package of the same.

OUT gets `tscache-VERSION-x86_64-linux.tar.gz`, and where `dpkg-deb` is there also
`tscache_VERSION_amd64.deb`. What is in them is proved and built first; with --unproved it is built
without proofs, and their names, `BUILT`, `tscache.pc` and the program say so. The checkout has to be
clean, and two releases of one commit are the same bytes: entries are sorted, have the time of the
commit and no owner, and nothing that is built names a folder of the machine.

An unpacked archive has the folders of a prefix, `bin`, `include`, `lib`, `libexec` and `share`,
and above them `install.sh`, `uninstall.sh` and `BUILT`. That file has the commit, the kit's line,
whether all is proved, how long the gate took when it was last measured (docs/PROOFS.md), and a
checksum of each file. Links of documents lead to where a release has what they are to.
"""
import gzip
import hashlib
import io
import os
import posixpath
import re
import shutil
import sys
import tarfile
from email.utils import formatdate

from parts.builds import Builds, words_of
from parts.frame import ROOT, WRONG_WORDS, Fault, needs_rt, read, say, temporary, text_of, told_by, write
from parts.measure.gate import measured
from parts.repository import filled, version as version_of

PLATFORM, ARCHITECTURE = "x86_64-linux", "amd64"
TEXTS = ("README.md", "LICENSE", "CHANGELOG.md", "CONTRIBUTING.md", "VERSION")
FOLDERS = ("bindings", "docs", "examples", "include")
# Where a release has what is committed: by its name, or by the folder that it lies in.
PLACES = {"bindings": "share/tscache", "examples": "share/tscache", "include": ""}
ELSE = "share/doc/tscache"
# What is copied as it is, from where to where.
PACKAGING = {
    "packaging/tsan.supp": "share/tscache/tsan.supp",
    "packaging/tscache": "bin/tscache",
    "packaging/words.sh": "libexec/tscache/words.sh",
    "packaging/tscache.1": "share/man/man1/tscache.1",
    "packaging/completions/tscache.bash": "share/bash-completion/completions/tscache",
    "packaging/completions/_tscache": "share/zsh/site-functions/_tscache",
    "scripts/install": "install.sh",
    "scripts/uninstall": "uninstall.sh",
}
PROGRAM = "libexec/tscache/tscache"
RUNS = ("bin/tscache", PROGRAM, "install.sh", "uninstall.sh")
LIBRARIES = ("lib/libtscache.a", "lib/libtscache.so.0")
LINK = "lib/libtscache.so"
UNPROVED = "no: built without proofs, for tests alone"
TARGET = re.compile(r"\]\(([^)\s#:]+)(#[^)\s]*)?\)")
# What a Debian package calls by another name, or has in another form.
DEBIAN = {
    "share/zsh/site-functions/_tscache": "share/zsh/vendor-completions/_tscache",
    "share/man/man1/tscache.1": "share/man/man1/tscache.1.gz",
}
GLIBC = re.compile(rb"\0GLIBC_(\d+)\.(\d+)")


def copy(path, to):
    os.makedirs(os.path.dirname(to), exist_ok=True)
    shutil.copyfile(path, to, follow_symlinks=False)


def put_library(top, flat, version):
    """Puts both forms of the library into the release's folder, and what finds them."""
    major, minor, _ = version.split(".")
    for name in (*LIBRARIES, LINK):
        copy(f"{flat}/{os.path.basename(name)}", f"{top}/{name}")
    for name in ("tscache.pc", "tscache-shared.pc"):
        text = read(f"{flat}/{name}").decode()
        text = text.replace("libdir=${pcfiledir}", "libdir=${pcfiledir}/..")
        text = text.replace("dir=${pcfiledir}\n", "dir=${pcfiledir}/../../include\n")
        write(f"{top}/lib/pkgconfig/{name}", text)
    description = description_of(f"{top}/lib/pkgconfig/tscache.pc")
    words = {"version": version, "description": description, "major": major, "minor": minor}
    for name in ("tscache-config.cmake", "tscache-config-version.cmake"):
        write(f"{top}/lib/cmake/tscache/{name}", filled(name, **words))


def description_of(path):
    """Returns how a file for pkg-config describes the library."""
    return re.search(r"^Description: (.*)$", read(path).decode(), re.M)[1]


def place_of(name):
    """Returns where a release has what is committed under a name."""
    return posixpath.join(PLACES.get(name.split("/")[0], ELSE), name)


def with_links(name, place, names):
    """Returns a document whose links lead to where a release has what they are to."""
    def moved(link):
        to = posixpath.normpath(posixpath.join(posixpath.dirname(name), link[1]))
        if not os.path.exists(f"{ROOT}/{to}"):
            return link[0]
        if not any(it == to or it.startswith(f"{to}/") for it in names):
            raise Fault(f"{name}: a release doesn't have what its link {link[1]} leads to")
        there = posixpath.relpath(place_of(to), posixpath.dirname(place) or ".")
        return f"]({there}{link[2] or ''})"

    return TARGET.sub(moved, text_of(name))


def copy_all(top):
    """Puts what is committed into the release's folder."""
    told = told_by("git", "ls-files", "-z", *FOLDERS, *TEXTS)
    names = [name for name in told.split("\0") if name and not name.endswith("/.gitignore")]
    # (the first two are also there where one looks first)
    places = [(name, place_of(name)) for name in names] + [(name, name) for name in TEXTS[:2]]
    for name, place in places:
        if name.endswith(".md"):
            write(f"{top}/{place}", with_links(name, place, names))
        else:
            copy(f"{ROOT}/{name}", f"{top}/{place}")
    for name, place in PACKAGING.items():
        copy(f"{ROOT}/{name}", f"{top}/{place}")


def files_below(top):
    """Returns the paths of all files below a folder, sorted."""
    found = (os.path.join(at, name) for at, _, names in os.walk(top) for name in names)
    return sorted(os.path.relpath(path, top) for path in found)


def facts(version, commit, is_proved):
    """Returns what the program tells of itself, which `BUILT` begins with."""
    return [
        f"tscache {version}",
        f"commit: {commit}",
        f"kit: {told_by('rt', 'version')}",
        f"proved: {'yes' if is_proved else UNPROVED}",
    ]


def built(top, facts):
    """Returns the text of `BUILT`."""
    gate = measured(text_of("docs/PROOFS.md"))
    if not gate:
        raise Fault("docs/PROOFS.md doesn't say how long the gate takes")
    lines = [
        f"{facts[0]} for {PLATFORM}",
        *facts[1:],
        f"gate: {gate.minutes} minutes on {gate.processors} processors when last measured (docs/PROOFS.md)",
        "",
        "SHA-256 of each file:",
    ]
    for name in files_below(top):
        lines.append(f"{hashlib.sha256(read(f'{top}/{name}')).hexdigest()}  {name}")
    return "\n".join(lines) + "\n"


def squeezed(content):
    """Returns bytes as gzip makes them, with no name and no time."""
    into = io.BytesIO()
    with gzip.GzipFile(fileobj=into, filename="", mode="wb", compresslevel=9, mtime=0) as file:
        file.write(content)
    return into.getvalue()


def packed(top, name, time):
    """Returns the bytes of the archive, which depend on the files and on the time alone."""
    packed_to = io.BytesIO()
    with tarfile.open(fileobj=packed_to, mode="w", format=tarfile.USTAR_FORMAT) as archive:
        for path in files_below(top):
            entry, content = tarfile.TarInfo(f"{name}/{path}"), b""
            entry.mtime = time
            if path == LINK:
                entry.type, entry.linkname = tarfile.SYMTYPE, os.readlink(f"{top}/{path}")
                entry.mode = 0o777
            else:
                content = read(f"{top}/{path}")
                entry.mode = 0o755 if path in RUNS else 0o644
            entry.size = len(content)
            archive.addfile(entry, io.BytesIO(content))
    return squeezed(packed_to.getvalue())


def needs(paths):
    """Returns the package that ELF files need: libc, of the newest version that they ask for."""
    asked = [found for path in paths for found in GLIBC.findall(read(path))]
    newest = max((int(major), int(minor)) for major, minor in asked)
    return "libc6 (>= {}.{})".format(*newest)


def debian_tree(top, tree, words, time):
    """Lays out what a Debian package holds, and returns the names of its files."""
    for name in files_below(top):
        if "/" not in name or name == f"{ELSE}/LICENSE":
            continue
        to = f"{tree}/usr/{DEBIAN.get(name, name)}"
        if to.endswith(".gz"):
            write(to, squeezed(read(f"{top}/{name}")))
        else:
            copy(f"{top}/{name}", to)
    write(f"{tree}/usr/{ELSE}/BUILT", read(f"{top}/BUILT").partition(b"\n\n")[0] + b"\n")
    write(f"{tree}/usr/{ELSE}/copyright", text_of("packaging/debian/copyright"))
    changes = filled("debian/changelog", date=formatdate(time), **words)
    write(f"{tree}/usr/{ELSE}/changelog.gz", squeezed(changes.encode()))
    overrides = text_of("packaging/debian/lintian-overrides")
    write(f"{tree}/usr/share/lintian/overrides/tscache", overrides)
    return files_below(tree)


def control(top, tree, names, words):
    """Writes what dpkg has to know of a package."""
    sums = "".join(
        f"{hashlib.md5(read(f'{tree}/{name}')).hexdigest()}  {name}\n"
        for name in names
        if not os.path.islink(f"{tree}/{name}")
    )
    kilobytes = sum(os.lstat(f"{tree}/{name}").st_size + 1023 for name in names) // 1024
    depends = needs([f"{top}/{PROGRAM}", f"{top}/{LIBRARIES[1]}"])
    words = {**words, "size": str(kilobytes), "depends": depends}
    write(f"{tree}/DEBIAN/md5sums", sums)
    write(f"{tree}/DEBIAN/control", filled("debian/control", **words))
    write(f"{tree}/DEBIAN/shlibs", filled("debian/shlibs", **words))
    write(f"{tree}/DEBIAN/triggers", text_of("packaging/debian/triggers"))


def settle(tree, time):
    """Gives all that a Debian package holds its mode and its time."""
    for at, _, names in os.walk(tree, topdown=False):
        for path in (f"{at}/{name}" for name in names):
            if not os.path.islink(path):
                os.chmod(path, 0o755 if os.path.relpath(path, f"{tree}/usr") in RUNS else 0o644)
            os.utime(path, (time, time), follow_symlinks=False)
        os.chmod(at, 0o755)
        os.utime(at, (time, time))


def debian(top, work, version, is_proved, time):
    """Makes the Debian package of a release's folder, and returns its name."""
    tree = f"{work}/debian"
    major, minor, _ = version.split(".")
    words = {
        # (~ comes before nothing, so that a proved package replaces the other)
        "version": version + ("" if is_proved else "~unproved"),
        "series": f"{major}.{minor}",
        "next": f"{major}.{int(minor) + 1}",
        "description": description_of(f"{top}/lib/pkgconfig/tscache.pc").replace("The ", "", 1),
    }
    control(top, tree, debian_tree(top, tree, words, time), words)
    settle(tree, time)
    name = f"tscache_{words['version']}_{ARCHITECTURE}.deb"
    env = {**os.environ, "SOURCE_DATE_EPOCH": str(time)}
    build = ["dpkg-deb", "--root-owner-group", "-Zxz", "--build"]
    told_by(*build, tree, f"{work}/{name}", env=env)
    return name


def put(content, path):
    """Puts a file in its place, where it is seen once it is complete, and says so."""
    part = f"{path}.part"
    try:
        with open(part, "wb") as file:
            file.write(content)
        os.replace(part, path)
    finally:
        if os.path.exists(part):
            os.remove(part)
    print(f"{path}: {hashlib.sha256(content).hexdigest()}", file=sys.stderr)


def arguments(parser):
    words_of(parser)
    parser.add_argument("out", metavar="OUT", help="the folder")


def main(given):
    is_proved, out, version = not given.unproved, os.path.abspath(given.out), version_of()
    needs_rt()
    if given.built and is_proved:
        raise Fault("what is proved is built anew for each release: leave --built out", WRONG_WORDS)
    if told_by("git", "status", "--porcelain"):
        raise Fault("the checkout is not clean: commit what has changed, or put it aside")
    commit, time = told_by("git", "log", "-1", "--format=%H %ct").split()
    name = f"tscache-{version}-{PLATFORM}" + ("" if is_proved else "-unproved")
    how = ", which proves and builds all that is in it" if is_proved else ""
    say(f"making {name}.tar.gz{how}")
    os.makedirs(out, exist_ok=True)
    with temporary() as work:
        top = f"{work}/{name}"
        given.built = given.built or f"{work}/built"
        builds = Builds(given, work)
        copy(builds.program(), f"{top}/{PROGRAM}")
        put_library(top, builds.library(), version)
        copy_all(top)
        told = facts(version, commit, is_proved)
        write(f"{top}/libexec/tscache/built", "\n".join(told) + "\n")
        now = told_by("git", "rev-parse", "HEAD"), told_by("git", "status", "--porcelain")
        if now != (commit, ""):
            raise Fault("the checkout was changed meanwhile, so nothing is released")
        write(f"{top}/BUILT", built(top, told))
        made = {f"{name}.tar.gz": packed(top, name, int(time))}
        if shutil.which("dpkg-deb"):
            package = debian(top, work, version, is_proved, int(time))
            made[package] = read(f"{work}/{package}")
        else:
            say("not run: the making of a Debian package: dpkg-deb is missing")
        for it, content in made.items():
            put(content, f"{out}/{it}")
