"""The installation of a release, and its removal."""
import hashlib
import os
import posixpath
import re
import shlex
import shutil

from parts.repository import anchors

from cases import LINK, RUNS
from cases import append, files_below, mode_of, read, run, text_of, tree, write

# Links of a document, without those of code.
CODE = re.compile(r"^\s*```.*?^\s*```|(`+)(?:.*?[^`])?\1(?!`)", re.M | re.S)
TARGET = re.compile(r"\]\(([^)\s]+)\)")


def refused_installations(cases, work, top):
    """What isn't installed, and leaves nothing."""
    files = ["lib/libtscache.a", "bin/tscache", "libexec/tscache/tscache"]
    files += ["share/tscache/bindings/go/go.mod", "share/doc/tscache/README.md"]
    for file in files:
        shutil.copytree(top, f"{work}/changed", symlinks=True)
        append(f"{work}/changed/{file}", "x")
        status, told = run("./install.sh", f"{work}/refused", cwd=f"{work}/changed")
        got = status, f"{file}: FAILED" in told, os.path.exists(f"{work}/refused")
        cases.expect(f"{file} with another checksum", got, (1, True, False))
        shutil.rmtree(f"{work}/changed")
    for script, many in (("install.sh", ["a", "b"]), ("uninstall.sh", ["a", "b", "c"])):
        for words in ([], many, ["--help"], [""]):
            got = run(f"./{script}", *words, cwd=top)
            usage = f"usage: ./{script} PREFIX\n"
            cases.expect(f"{script} with the words {words}", got, (2, usage))
    write(f"{work}/file", "")
    status, told = run("./install.sh", f"{work}/file", cwd=top)
    last = f"install: not all could be written to {work}/file"
    cases.expect("a prefix that cannot be written to", (status, told.splitlines()[-1]), (73, last))


def installed(top):
    """What an installation of an unpacked release has, but for its manifest."""
    found = {}
    for name, it in tree(top).items():
        if name == "uninstall.sh" or "/" in name or name == "BUILT":
            place = {"uninstall.sh": "share/tscache", "BUILT": "share/doc/tscache"}.get(name)
            is_file = not os.path.islink(f"{top}/{name}")
            mode = 0o755 if name in RUNS else 0o644
            found[f"{place}/{name}" if place else name] = (it[0], mode) if is_file else it
    return found


def install(cases, work, top):
    """Installs an unpacked release, and returns where."""
    script = shlex.quote(f"{top}/install.sh")
    status, told = run("sh", "-c", f"umask 077; {script} 'a prefix'", cwd=work)
    prefix = f"{work}/a prefix"
    cases.expect("an installation", (status, told.count("\n")), (0, 1))
    cases.expect("it tells the folder of pkg-config", f"={prefix}/lib/pkgconfig " in told)
    cases.expect("it tells that of CMake", told.endswith(f" CMAKE_PREFIX_PATH={prefix}\n"))
    found, wanted = tree(prefix), installed(top)
    manifest = found.pop("share/tscache/manifest")
    cases.expect("its files and their modes, whatever the umask is", found, wanted)
    cases.expect("the mode of its manifest", manifest[1], 0o644)
    folders = [os.path.relpath(at, prefix) for at, _, _ in os.walk(prefix)]
    modes = {mode_of(f"{prefix}/{it}") for it in folders}
    cases.expect("the modes of its folders", modes, {0o755})
    lines = [f"folder  {it}" for it in folders]
    for name, it in wanted.items():
        lines.append(f"link {it}  {name}" if name == LINK else f"{it[0]}  {name}")
    found = text_of(f"{prefix}/share/tscache/manifest").splitlines()
    cases.expect("its manifest", sorted(found), sorted(lines))
    # (nothing that is installed knows where, so it may be moved)
    os.rename(prefix, f"{work}/moved")
    return f"{work}/moved"


def staged(cases, work, top, prefix):
    """Installations by DESTDIR and PREFIX."""
    # (below this folder too, so that nothing else is written to where DESTDIR is passed over)
    stage = {"DESTDIR": f"{work}/stage"}
    for what, words, env, at in (
        ("DESTDIR and PREFIX", [], {**stage, "PREFIX": f"{work}/one"}, f"stage{work}/one"),
        ("DESTDIR and a word", [f"{work}/two"], {**stage, "PREFIX": "/"}, f"stage{work}/two"),
        ("PREFIX", [], {"PREFIX": f"{work}/three"}, "three"),
    ):
        how = {"cwd": top, "env": {**os.environ, **env}}
        got = run("./install.sh", *words, **how)[0], tree(f"{work}/{at}") == tree(prefix)
        cases.expect(f"an installation by {what}", got, (0, True))
        got = run("./uninstall.sh", *words, **how)[0], os.path.exists(f"{work}/{at}")
        cases.expect(f"its removal by {what}", got, (0, False))


def uninstall(cases, work, top):
    """What a removal leaves: what was there before, and what was changed since."""
    prefix = f"{work}/used"
    write(f"{prefix}/lib/libother.a", "other\n", 0o600)
    os.makedirs(f"{prefix}/include")
    run("./install.sh", prefix, cwd=top)
    write(f"{prefix}/share/tscache/mine", "mine\n")
    append(f"{prefix}/share/tscache/tsan.supp", "race:mine\n")
    os.remove(f"{prefix}/include/tscache.h")
    # (it removes what it lies in, whatever the environment says)
    env = {**os.environ, "PREFIX": f"{work}/moved", "DESTDIR": work}
    status, told = run(f"{prefix}/share/tscache/uninstall.sh", env=env)
    kept = f"uninstall: kept, since it was changed: {prefix}/share/tscache/tsan.supp"
    cases.expect("a removal names what it keeps", (status, told.splitlines()[0]), (1, kept))
    left = ["lib/libother.a", "share/tscache/mine", "share/tscache/tsan.supp"]
    cases.expect("what it leaves", files_below(prefix), left)
    folders = sorted(os.path.relpath(at, prefix) for at, _, _ in os.walk(prefix))
    left = [".", "include", "lib", "share", "share/tscache"]
    cases.expect("the folders that it leaves", folders, left)
    manifest = f"{prefix}/share/tscache/manifest"
    told = run(f"{top}/uninstall.sh", prefix)
    cases.expect("where nothing is installed", told, (66, f"uninstall: there is no {manifest}\n"))
    write(f"{work}/precious", "precious\n")
    sum_of = hashlib.sha256(read(f"{work}/precious")).hexdigest()
    for path in ("../precious", f"{work}/precious", "share/../../precious"):
        write(manifest, f"{sum_of}  {path}\n")
        got = run(f"{top}/uninstall.sh", prefix)[0], os.path.exists(f"{work}/precious")
        cases.expect(f"a manifest that names {path}", got, (66, True))


def upgrade(cases, work, top, prefix):
    """An installation over an earlier one that had other files."""
    earlier, at = f"{work}/earlier", f"{work}/upgraded"
    shutil.copytree(top, earlier, symlinks=True)
    for name in ("share/tscache/gone/old", "share/tscache/old", "share/tscache/changed"):
        write(f"{earlier}/{name}", f"{name}\n")
        sum_of = hashlib.sha256(read(f"{earlier}/{name}")).hexdigest()
        append(f"{earlier}/BUILT", f"{sum_of}  {name}\n")
    run("./install.sh", at, cwd=earlier)
    cases.expect("an earlier installation", os.path.exists(f"{at}/share/tscache/gone/old"))
    append(f"{at}/share/tscache/changed", "and mine\n")
    status, told = run("./install.sh", at, cwd=top)
    kept = f"uninstall: kept, since it was changed: {at}/share/tscache/changed"
    cases.expect("an installation over it", (status, kept in told.splitlines()), (0, True))
    found, wanted = tree(at), tree(prefix)
    cases.expect("it keeps what was changed", "share/tscache/changed" in found)
    for it in ("share/tscache/changed", "share/tscache/manifest"):
        found.pop(it, None)
        wanted.pop(it, None)
    cases.expect("all else is as in a new one", found == wanted)
    cases.expect("an emptied folder goes", os.path.exists(f"{at}/share/tscache/gone"), False)
    os.remove(f"{at}/share/tscache/changed")
    got = run(f"{at}/share/tscache/uninstall.sh")[0], os.path.exists(at)
    cases.expect("and nothing is left by a removal", got, (0, False))


def install_from_a_checkout(cases, work, other, env, prefix):
    """An installation by the script of a checkout, which makes a release first."""
    status = run(f"{other}/scripts/install", "--unproved", f"{work}/second", env=env)[0]
    got = status, tree(f"{work}/second") == tree(prefix)
    cases.expect("an installation from a checkout", got, (0, True))
    status = run("git", "status", "--porcelain", cwd=other)
    cases.expect("it leaves the checkout clean", status, (0, ""))
    usage = "usage: scripts/install [--unproved] PREFIX\n"
    told = run(f"{other}/scripts/install", cwd=work)
    cases.expect("an installation without a prefix", told, (2, usage))


def links(cases, what, top):
    """That each link of a document leads to what is there, and lies below the same folder."""
    documents = [it for it in files_below(top) if it.endswith(".md")]
    lost, count = [], 0
    for it in documents:
        for target in TARGET.findall(CODE.sub("", text_of(f"{top}/{it}"))):
            name, _, anchor = target.partition("#")
            if re.match(r"[a-z]+:", name):
                continue
            count += 1
            place = posixpath.normpath(posixpath.join(posixpath.dirname(it), name)) if name else it
            if place.startswith("..") or not os.path.exists(f"{top}/{place}"):
                lost.append(f"{it}: {target}")
            elif anchor and anchor not in anchors(text_of(f"{top}/{place}")):
                lost.append(f"{it}: {target}")
    cases.expect(f"the links of the documents of {what}", (lost, count > 50), ([], True))
