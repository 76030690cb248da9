"""The Debian package of a release, below a folder where dpkg installs it."""
import gzip
import os
import re
import shlex

from cases import BUILT_FILES, HERE, LINK, RUNS, STRICTEST, TESTS, UNPROVED
from cases import files_below, found_in, needed, read, run, text_of, tree, write
from installing import links
from linking import the_program, told_by_use

DOCUMENTS = "usr/share/doc/tscache"
# What a Debian package has beside a release's files.
OWN = ["BUILT", "changelog.gz", "copyright"]
OVERRIDES = "usr/share/lintian/overrides/tscache"
STATUS = """Package: libc6
Status: install ok installed
Architecture: amd64
Version: %s
Maintainer: nobody
Description: stands in for that of this machine
"""


def place_of(name):
    """Where a Debian package has what an archive has, or nothing."""
    if "/" not in name or name == "share/doc/tscache/LICENSE":
        return None
    name = name.replace("zsh/site-functions", "zsh/vendor-completions")
    return f"usr/{name}{'.gz' if name.startswith('share/man/') else ''}"


def contents(top):
    """The files that a Debian package of a release has: where a link leads, or else the mode."""
    places = {place_of(it): 0o755 if it in RUNS else 0o644 for it in files_below(top)}
    places.update({it: 0o644 for it in (OVERRIDES, *(f"{DOCUMENTS}/{it}" for it in OWN))})
    places[f"usr/{LINK}"] = "libtscache.so.0"
    del places[None]
    return places


def newest_libc(top):
    """The newest version of libc that what was compiled asks for, by another tool."""
    told = "".join(run("objdump", "-p", f"{top}/{file}")[1] for file in BUILT_FILES[::2])
    asked = re.findall(r"GLIBC_(\d+)\.(\d+)", told)
    return "{}.{}".format(*max((int(major), int(minor)) for major, minor in asked))


def debian_root(work):
    """A folder where dpkg takes the libc of this machine for installed, and nothing else."""
    root = f"{work}/root"
    version = run("dpkg-query", "-W", "-f", "${Version}", "libc6")[1]
    write(f"{root}/var/lib/dpkg/status", STATUS % version, 0o644)
    write(f"{root}/var/lib/dpkg/info/libc6.list", "", 0o644)
    os.makedirs(f"{root}/var/lib/dpkg/updates")
    return root


def debian(cases, work, top, package, version):
    """Installs a Debian package below a folder of its own, tries it there, and purges it."""
    if not all(cases.has(it, "the Debian package") for it in ("dpkg", "dpkg-deb")):
        return
    told = run("dpkg-deb", "--field", package)[1]
    fields = dict(re.findall(r"^([A-Z][\w-]*): (.*)$", told, re.M))
    got = [fields[it] for it in ("Package", "Version", "Architecture", "Description")]
    described = UNPROVED.replace("The ", "")
    cases.expect("its package", got, ["tscache", f"{version}~unproved", "amd64", described])
    needs = f"libc6 (>= {newest_libc(top)})"
    cases.expect("its need of libc", fields["Depends"], needs)
    root = debian_root(work)
    dpkg = ["dpkg", f"--root={root}", "--force-not-root", "--force-bad-path", "--log=/dev/null"]
    beside_an_old_libc(cases, root, dpkg, package)
    status, told = run(*dpkg, "--install", package)
    cases.expect("its installation", (status, told if status else ""), (0, ""))
    cases.expect("its checksums", run(*dpkg, "--verify", "tscache"), (0, ""))
    found = {it: is_ for it, is_ in tree(root).items() if it.startswith("usr/")}
    got = {it: is_ if isinstance(is_, str) else is_[1] for it, is_ in found.items()}
    cases.expect("its files and their modes", got, contents(top))
    listed = run("dpkg-deb", "--contents", package)[1]
    owners = set(re.findall(r"^\S+ (\S+)", listed, re.M))
    cases.expect("their owners", owners, {"root/root"})
    links(cases, "the Debian package", f"{root}/usr")
    use_debian(cases, work, root, version)
    cases.expect("its purge", run(*dpkg, "--purge", "tscache")[0], 0)
    left = [it for it in files_below(root) if not it.startswith("var/lib/dpkg/")]
    cases.expect("what is left of it", left, [])
    if cases.has("lintian", "lintian"):
        status, told = run("lintian", "--fail-on", "error,warning", "--allow-root", package)
        cases.expect("lintian", (status, told if status else ""), (0, ""))


def beside_an_old_libc(cases, root, dpkg, package):
    """It isn't configured there, and the reason is named."""
    path = f"{root}/var/lib/dpkg/status"
    now = text_of(path)
    write(path, STATUS % "2.1", 0o644)
    status, told = run(*dpkg, "--install", package)
    got = status != 0, "tscache depends on libc6" in told
    cases.expect("beside an old libc", got, (True, True))
    run(*dpkg, "--purge", "tscache")
    write(path, now, 0o644)


def use_debian(cases, work, root, version):
    """A program in C over both forms of an installed Debian package, and the installed command."""
    env = {**found_in(f"{root}/usr"), "PKG_CONFIG_LIBDIR": f"{root}/usr/lib/pkgconfig"}
    for form in ("tscache", "tscache-shared"):
        flags = shlex.split(run("pkg-config", "--cflags", "--libs", form, env=env)[1])
        made = run("gcc", "-std=c11", *STRICTEST, f"{TESTS}/use.c", *flags, "-o", f"{work}/use")
        told = run(f"{work}/use", env=env) if made == (0, "") else made
        wanted = told_by_use(version), "shared" in form
        what = f"a program over the Debian package's {form}"
        cases.expect(what, (told, needed(f"{work}/use")), wanted)
    the_program(cases, f"{root}/usr")
    page = gzip.decompress(read(f"{root}/usr/share/man/man1/tscache.1.gz"))
    cases.expect("its page", page == read(f"{HERE}/packaging/tscache.1"))
