"""Programs over an installed release."""
import os
import re
import shlex
import shutil
import subprocess

from cases import CPP_STRICTEST, HERE, STRICT, STRICTEST, TESTS
from cases import found_in, needed, number_of, read, run, text_of, write

# What a header is compiled by, so that it must give no warning.
COMPILERS = [
    ("gcc", "use.c", ["-std=c99", *STRICTEST]),
    ("gcc", "use.c", ["-std=c11", *STRICTEST]),
    ("g++", "use.cc", ["-std=c++11", *CPP_STRICTEST]),
    ("g++", "use.cc", ["-std=c++17", *CPP_STRICTEST]),
]
# The languages of docs/BUILDING.md, and where each line builds a program.
PROGRAMS = {"cc": "use", "c++": "use", "cargo": "target/debug/use", "go": "use"}
COMMAND = re.compile(r"(?:[A-Z_]+=\S+ +)*(cc|c\+\+|cargo|go) ")
MANIFEST = '[package]\nname = "use"\nversion = "0.0.0"\nedition = "2021"\n'
MODULE = "module example.invalid/use\n\ngo 1.19\n"


def versions(cases, version, prefix):
    """That all that tells a version tells this one."""
    cases.expect("VERSION is one", version, re.compile(r"\d+\.\d+\.\d+"))
    manifest = text_of(f"{HERE}/bindings/rust/Cargo.toml")
    found = re.search(r'^version = "(.*)"$', manifest, re.M)[1]
    cases.expect("bindings/rust/Cargo.toml", found, version)
    lock = text_of(f"{HERE}/bindings/rust/Cargo.lock")
    found = re.search(r'name = "tscache"\nversion = "(.*)"', lock)[1]
    cases.expect("bindings/rust/Cargo.lock", found, version)
    newest = re.findall(r"^## \[(\d.*?)\]", text_of(f"{HERE}/CHANGELOG.md"), re.M)
    cases.expect("the newest of CHANGELOG.md", newest[:1], [version])
    cases.expect("the first of CHANGELOG.md", newest[-1:], ["0.1.0"])
    for what, program in (("./tscache", f"{HERE}/tscache"), ("tscache", f"{prefix}/bin/tscache")):
        told = run(program, "version")[1].splitlines()
        cases.expect(f"{what} version", told[0], f"tscache {version}")
    for name in ("tscache", "tscache-shared"):
        told = run("pkg-config", "--modversion", name, env=found_in(prefix))
        cases.expect(f"{name}.pc", told, (0, f"{version}\n"))


def headers(cases, work, prefix):
    """Each header by itself, by pkg-config's flags, gives no warning."""
    flags = shlex.split(run("pkg-config", "--cflags", "tscache", env=found_in(prefix))[1])
    for name in sorted(os.listdir(f"{prefix}/include")):
        for compiler, source, strict in COMPILERS if name.endswith(".h") else COMPILERS[-1:]:
            write(f"{work}/{source}", f"#include <{name}>\nint main(void) {{ return 0; }}\n")
            made = run(compiler, *strict, *flags, f"{work}/{source}", "-o", f"{work}/use")
            cases.expect(f"{name} by itself, {compiler} {strict[0]}", made, (0, ""))


def told_by_use(version):
    """What `use.c` tells."""
    return 0, f"{number_of(version)} {number_of(version)} 20\n"


def c_programs(cases, work, version, prefix):
    """Programs that find both forms by pkg-config, without a warning of the header."""
    for form in ("tscache", "tscache-shared"):
        for static, asked in (([], []), (["-static"], ["--static"])):
            ask = ["pkg-config", *asked, "--cflags", "--libs", form]
            status, flags = run(*ask, env=found_in(prefix))
            cases.expect(f"{' '.join(ask)}", status, 0)
            for compiler, name, strict in COMPILERS:
                shutil.copy(f"{TESTS}/use.c", f"{work}/{name}")
                words = [*strict, f"{work}/{name}", *static, *shlex.split(flags)]
                what = f"{compiler} {strict[0]}, by {' '.join(ask)}"
                made = run(compiler, *words, "-o", f"{work}/use")
                cases.expect(what, made, (0, ""))
                got = run(f"{work}/use", env=found_in(prefix)), needed(f"{work}/use")
                is_shared = form == "tscache-shared" and not asked
                cases.expect(f"that program, {what}", got, (told_by_use(version), is_shared))


def cmake_programs(cases, work, version, prefix):
    """Programs that find both forms by CMake, which takes no other version for this one."""
    if not cases.has("cmake", "CMake"):
        return
    minor = version.rpartition(".")[0]
    for asked, is_found in (("", True), (minor, True), ("99.0", False), ("0.99", False)):
        status, told = configured(f"{work}/cmake-{asked}", asked, prefix)
        got = status == 0, f"tscache is {version}" in told
        cases.expect(f"CMake looks for version {asked or 'any'}", got, (is_found, is_found))
    folder = f"{work}/cmake"
    status, told = configured(folder, version, prefix)
    cases.expect("CMake looks for this version", (status, told if status else ""), (0, ""))
    status, told = run("cmake", "--build", f"{folder}/made")
    cases.expect("CMake builds C and C++", (status, told if status else ""), (0, ""))
    for program in ("use", "use_cpp", "use_shared", "use_shared_cpp"):
        path = f"{folder}/made/{program}"
        wanted = told_by_use(version), "shared" in program
        cases.expect(f"what {program} tells, by CMake", (run(path), needed(path)), wanted)


def configured(folder, asked, prefix):
    """Has CMake configure a project that wants a version."""
    text = text_of(f"{TESTS}/CMakeLists.txt").replace("@WANTED@", asked)
    write(f"{folder}/CMakeLists.txt", text)
    shutil.copy(f"{TESTS}/use.c", folder)
    flags = [f"-DCMAKE_PREFIX_PATH={prefix}", f"-DCMAKE_C_FLAGS={' '.join(STRICTEST)}"]
    flags.append(f"-DCMAKE_CXX_FLAGS={' '.join(CPP_STRICTEST)}")
    return run("cmake", "-S", folder, "-B", f"{folder}/made", *flags)


def another_series(cases, work, prefix):
    """A program that was linked with another minor version does not begin."""
    folder = f"{work}/another"
    shutil.copytree(f"{prefix}/lib", folder, symlinks=True)
    content = read(f"{folder}/libtscache.so.0")
    with open(f"{folder}/libtscache.so.0", "wb") as file:
        file.write(content.replace(b"TSCACHE_0.", b"TSCACHE_9."))
    words = [f"{TESTS}/use.c", f"-I{prefix}/include", f"-L{prefix}/lib", "-ltscache"]
    made = run("gcc", *words, "-o", f"{work}/series")
    status, told = run(f"{work}/series", env={**os.environ, "LD_LIBRARY_PATH": folder})
    got = made, status != 0, "TSCACHE_0." in told
    cases.expect("a shared library of another minor version", got, ((0, ""), True, True))


def the_program(cases, prefix):
    """The installed command, and its page."""
    examples = f"{prefix}/share/tscache/examples"
    words = ["replay", f"{examples}/two_readers.json"]
    told = run(f"{prefix}/bin/tscache", *words, stderr=subprocess.DEVNULL)
    cases.expect("the program", told, (0, text_of(f"{examples}/two_readers.log")))
    facts = text_of(f"{prefix}/libexec/tscache/built")
    cases.expect("its version", run(f"{prefix}/bin/tscache", "version"), (0, facts))
    if cases.has("man", "the man page"):
        pages = f"{prefix}/share/man/man1"
        page = f"{pages}/{os.listdir(pages)[0]}"
        status, told = run("man", "--warnings", "-l", page, env={**os.environ, "MANWIDTH": "80"})
        got = status, "replay" in told, "warning" in told
        cases.expect(f"its page {os.path.basename(page)}", got, (0, True, False))


def rust(cases, work, prefix):
    """An example of the crate, in the folder where it is installed."""
    if not cases.has("cargo", "the example of the crate for Rust"):
        return
    words = ["cargo", "run", "--offline", "--quiet", "--example", "leased_store"]
    env = {**os.environ, "TSCACHE_DIR": f"{prefix}/lib", "CARGO_TARGET_DIR": f"{work}/target"}
    status, told = run(*words, cwd=f"{prefix}/share/tscache/bindings/rust", env=env)
    cases.expect("the crate for Rust", (status, told if status else ""), (0, ""))


def documented(cases, work, prefix):
    """The lines of the installed docs/BUILDING.md that link a program, in each language."""
    text = text_of(f"{prefix}/share/doc/tscache/docs/BUILDING.md")
    section = re.search(r"^## Linking a program$(.*?)(?=^## |\Z)", text, re.M | re.S)[1]
    forms = {language: set() for language in PROGRAMS}
    env = {**os.environ, "GOCACHE": os.environ.get("GOCACHE", f"{work}/go-cache")}
    for line in "".join(re.findall(r"^```sh\n(.*?)^```", section, re.M | re.S)).splitlines():
        line, _, form = (it.strip() for it in line.replace("PREFIX", prefix).partition(" # "))
        if line.startswith("export "):
            env.update(it.split("=", 1) for it in line.split()[1:])
            continue
        language = COMMAND.match(line)[1]
        forms[language].add(form)
        folder = f"{work}/by-{language}"
        if not os.path.exists(folder):
            write_program(folder, language)
        if cases.has(language, f"docs/BUILDING.md: {line}"):
            one_line(cases, folder, line, form, env, f"{folder}/{PROGRAMS[language]}")
    for language, found in forms.items():
        got = {"the archive", "the shared library"} <= found
        cases.expect(f"docs/BUILDING.md links both forms by {language}", got)


def write_program(folder, language):
    """The sources of a program that tells the time of the latest read."""
    if language == "cargo":
        write(f"{folder}/Cargo.toml", MANIFEST, 0o644)
        write(f"{folder}/src/main.rs", text_of(f"{TESTS}/use.rs"), 0o644)
    elif language == "go":
        write(f"{folder}/go.mod", MODULE, 0o644)
        write(f"{folder}/main.go", text_of(f"{TESTS}/use.go"), 0o644)
    else:
        name = "use.c" if language == "cc" else "use.cc"
        write(f"{folder}/{name}", text_of(f"{TESTS}/use.c"), 0o644)


def one_line(cases, folder, line, form, env, program):
    """Runs a line of the document, and the program that it builds, if it builds one."""
    status, told = run("sh", "-c", line, cwd=folder, env=env)
    cases.expect(f"docs/BUILDING.md: {line}", (status, told if status else ""), (0, ""))
    if form and not status:
        status, told = run(program, env=env)
        got = status, told.split()[-1:], needed(program)
        is_shared = form == "the shared library"
        cases.expect(f"what that program tells, over {form}", got, (0, ["20"], is_shared))
        os.remove(program)


def names(cases, work, prefix):
    """Which names the library has for others, and what comes of two libraries in one program."""
    library = f"{prefix}/lib/libtscache.a"
    found = [line.split() for line in run("nm", "-g", library)[1].splitlines()]
    given = sorted(it[2] for it in found if len(it) == 3)
    taken = {it[1] for it in found if len(it) == 2}
    is_asked = {"malloc", "realloc", "free"} <= taken
    cases.expect("it takes memory by malloc, realloc and free", is_asked)
    print(f"it takes from others: {' '.join(sorted(taken))}", flush=True)
    renamed = [word for it in given for word in ("--redefine-sym", f"{it}=other_{it}")]
    run("objcopy", *renamed, library, f"{work}/libother.a")
    words = ["-std=c11", *STRICT, f"-I{prefix}/include", f"{TESTS}/two.c"]
    words += ["-Wl,--whole-archive", library, f"{work}/libother.a", "-Wl,--no-whole-archive"]
    made = run("gcc", *words, "-o", f"{work}/two")
    cases.expect("two libraries in one program", made, (0, ""))
    cases.expect("both ask the program's own malloc", run(f"{work}/two"), (0, ""))


def threads(cases, work, prefix):
    """A program with threads under ThreadSanitizer, which tells of no race with `tsan.supp`."""
    archive, shared = [f"{prefix}/lib/libtscache.a"], [f"-L{prefix}/lib", "-ltscache"]
    for form, link in (("the archive", archive), ("the shared library", shared)):
        words = ["-std=c11", "-O1", "-g", "-fsanitize=thread", "-pthread", f"-I{prefix}/include"]
        words += [f"{HERE}/bindings/c/test_seats.c", *link, "-o", f"{work}/seats"]
        if run("gcc", *words)[0]:
            cases.missing.append("not run: ThreadSanitizer: that of gcc is missing")
            return
        # Without the file it tells of races in nearly every run.
        is_told = any("WARNING: " in under_tsan(work, prefix, "")[1] for _ in range(5))
        cases.expect(f"without the suppressions it tells of races, in {form}", is_told)
        for turn in (1, 2, 3):
            file = f"suppressions={prefix}/share/tscache/tsan.supp"
            status, text = under_tsan(work, prefix, file)
            got = status, text.splitlines()[-1].endswith(" passed, 0 failed"), "WARNING: " in text
            what = f"with them it tells of none, in {form}, {turn} of 3"
            cases.expect(what, got, (0, True, False))


def under_tsan(work, prefix, options):
    """Runs a program with ThreadSanitizer's options."""
    # (a kernel that places programs anew each time may place one where this sanitizer can't work)
    env = {**found_in(prefix), "TSAN_OPTIONS": options}
    return run("setarch", "-R", f"{work}/seats", env=env)
