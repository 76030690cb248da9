"""Tests the crate for Rust over a library for C that was built.

The tests run over both forms of the library. Those of what must not compile look at the codes of the
errors too. The crate is formatted, linted, packed and documented, and its examples run. It is built
without the library, and with a wrong one. A program of its own, by the lines of README.md, finds the
library in each way, and links it anew where it is another.
"""
import os
import re
import shutil

from parts.builds import Builds, words_of
from parts.frame import ROOT, outcome, read, temporary, text_of, write
from parts.repository import files, version

CRATE = f"{ROOT}/bindings/rust"
ARCHIVE, SHARED, LINK = "libtscache.a", "libtscache.so.0", "libtscache.so"
# The folders where `build.rs` looks anyhow.
FOLDERS = ("/usr/local/lib", "/usr/lib", "/usr/lib64", "/lib", "/usr/lib/x86_64-linux-gnu")
# What `build.rs` asks for, and what it looks at.
ASK = "set TSCACHE_DIR to PREFIX/lib of an installed release, or to the OUT of"
LOOKS_AT = {"TSCACHE_DIR", "TSCACHE_LINK", "DOCS_RS", "LD_LIBRARY_PATH"}
LOOKS_AT |= {f"PKG_CONFIG_{name}" for name in ("PATH", "LIBDIR", "SYSROOT_DIR")}
# How many pass today: fewer count as a failure.
TESTS, TESTS_OVER_SHARED, SENTENCES, METRICS = 117, 39, 28, 36
# Each ends well only where what it checks itself holds; what it prints stands in the file, if one
# is named, behind this line.
BEHIND = "In stripes:\n"
EXAMPLES = {"leased_store": None, "lease_holder": "crates/example_lease_holder/stdout"}
# A public function that answers, with the line before it.
ANSWERS = re.compile(r"(.*)\n *pub (?:const )?fn (\w+)[^{]*?\) -> ")
# What a test may say of code that has another error than its own, or the same one.
CODES = {
    "the code of an error": ("E0277", True),
    "another code than an error has": ("E0382", False),
}
COPIES = "//! ```compile_fail,%s\n//! fn copied<T: Copy>() {}\n//! copied::<String>();\n//! ```\n"
METRIC = re.compile(
    r'# HELP tscache_\w+ .+|# TYPE tscache_\w+ (gauge|counter)|tscache_\w+\{seat="\d"\} \d+'
)
PROGRAM = {
    "Cargo.toml": '[package]\nname = "program"\nversion = "0.0.0"\nedition = "2021"\n\n'
    f'[dependencies]\ntscache = {{ path = "{CRATE}" }}\n\n[workspace]\n',
    "src/main.rs": """fn main() {
    let config = tscache::Config::default();
    let mut cache = tscache::Cache::open(&config).unwrap();
    let spans = [tscache::Span::Point(b"a")];
    let at = cache.earliest_write(&spans, tscache::Time::new(20, 0), [1; 16]).unwrap();
    println!("{} {}", tscache::built().version, at.wall);
}
""",
}


class Cargo:
    """Calls of cargo with one folder for what they build."""

    def __init__(self, target):
        self.target = target
        self.without = {name: it for name, it in os.environ.items() if name not in LOOKS_AT}

    def __call__(self, *words, cwd=CRATE, **env):
        command, *rest = words
        # (what a program and the tests print is looked at, and elsewhere what cargo warns of)
        quiet = ["--quiet"] if command in ("run", "test") else []
        flags = ["--offline", *quiet, "--target-dir", self.target]
        return outcome("cargo", command, *flags, *rest, cwd=cwd, env={**self.without, **env})


def tests(cases, cargo, what, least, words, **env):
    # (what must not compile is looked at for its code only where unstable features are allowed)
    status, told = cargo("test", *words, RUSTC_BOOTSTRAP="1", **env)
    results = re.findall(r"test result: \w+\. (\d+) passed; (\d+) failed", told)
    passed, failed = (sum(int(it[which]) for it in results) for which in (0, 1))
    cases.add(f"Rust, {what}", passed, failed or int(status != 0), least, told)


def codes(cases, work):
    """A test of what must not compile is looked at for the code of its error."""
    for what, (code, passes) in CODES.items():
        write(f"{work}/codes/copies.rs", COPIES % code)
        words = ["rustdoc", "--test", "--edition", "2021", f"{work}/codes/copies.rs"]
        status, told = outcome(*words, env={**os.environ, "RUSTC_BOOTSTRAP": "1"})
        cases.expect(f"Rust, {what} is seen", status == 0, passes, told)


def sentences(cases):
    """Each public function that answers says in a sentence why the answer is looked at."""
    said, missing = 0, []
    for path in files("bindings/rust/src/*.rs"):
        # (`ffi.rs` has the prototypes of C)
        for before, name in ANSWERS.findall(text_of(path)) if not path.endswith("/ffi.rs") else []:
            if re.search(r'#\[must_use = "(\S+ ){3,}\S+"\]', before):
                said += 1
            else:
                missing.append(f"{os.path.basename(path)}: {name}")
    cases.expect("Rust, a sentence on each answer", missing, [])
    cases.expect(f"Rust, a sentence on {said} answers, of {SENTENCES} at the least", said >= SENTENCES)


def lints(cases, cargo, out):
    if cases.has("cargo-fmt", "the format of the crate for Rust"):
        status, told = outcome("cargo", "fmt", "--check", cwd=CRATE)
        cases.expect("Rust, cargo-fmt", status, 0, told)
    if cases.has("cargo-clippy", "the lints of the crate for Rust"):
        status, told = cargo("clippy", "--all-targets", "--", "-D", "warnings", TSCACHE_DIR=out)
        cases.expect("Rust, cargo-clippy", status, 0, told)


def examples(cases, cargo, out):
    for example, stored in EXAMPLES.items():
        status, told = cargo("run", "--example", example, TSCACHE_DIR=out)
        is_right = status == 0 and (stored is None or told == text_of(stored).partition(BEHIND)[2])
        cases.expect(f"Rust, the example {example}", is_right, told=told)
    status, told = cargo("run", "--example", "figures", TSCACHE_DIR=out)
    lines = told.splitlines()
    is_whole = len(lines) >= METRICS and 'tscache_adds_total{seat="0"} 3' in lines
    is_right = status == 0 and is_whole and all(METRIC.fullmatch(line) for line in lines)
    cases.expect("Rust, the example figures, in the form of Prometheus", is_right, told=told)


def without_library(cases, cargo, work):
    """Checks and documents need no library, and a program is told what is missing."""
    none, warned = {"TSCACHE_DIR": f"{work}/none"}, {"RUSTDOCFLAGS": "-D warnings"}
    # What is called, in which environment, whether it ends well, and whether it asks for a library.
    unnamed = {
        "what is checked where the library is not named": (["check"], warned, True, True),
        "what is documented where the library is not named": (["doc", "--no-deps"], warned, True, True),
        "a program where it is not named": (["build"], {}, False, True),
    }
    named = {
        "the documents of docs.rs": (["doc", "--no-deps"], {"DOCS_RS": "1", **warned}, True, False),
        "where the library is missing": (["check"], none, False, True),
    }
    if any(os.path.isfile(f"{folder}/{name}") for folder in FOLDERS for name in (ARCHIVE, LINK)):
        cases.not_run("Rust, where the library is not named: one is installed")
        unnamed = {}
    for what, (words, env, *wanted) in {**unnamed, **named}.items():
        status, told = cargo(*words, **env)
        cases.expect(f"Rust, {what}", [status == 0, ASK in told], wanted, told)
    status, told = cargo("check", TSCACHE_LINK="shared", **none)
    is_told = status != 0 and "TSCACHE_LINK is static or dylib" in told
    cases.expect("Rust, another form than there are", is_told, told=told)


def packed(cases, cargo):
    """The crate, which is packed and sent nowhere, has what a registry asks for."""
    status, told = cargo("package", "--allow-dirty", "--no-verify")
    cases.expect("Rust, the crate as it is packed", (status, "manifest has no" in told), (0, False), told)


def of_another_version(path, to):
    """Copies a library as one that tells another version."""
    write(to, read(path).replace(version().encode() + b"\0", b"9.9.9\0"))


def program(cases, work, out):
    """A crate of its own, by the lines of README.md, that finds the library in each way."""
    there, cargo = f"{work}/program", Cargo(f"{work}/built")
    for name, text in PROGRAM.items():
        write(f"{there}/{name}", text)
    os.makedirs(f"{work}/lib")

    def expect(what, wanted, ended):
        cases.expect(f"Rust, a program {what}", ended, (0, f"{wanted} 20\n"))

    shutil.copy(f"{out}/{ARCHIVE}", f"{work}/lib/{ARCHIVE}")
    expect("over the archive", version(), cargo("run", cwd=there, TSCACHE_DIR=f"{work}/lib"))
    of_another_version(f"{out}/{ARCHIVE}", f"{work}/lib/{ARCHIVE}")
    expect("over a rebuilt archive", "9.9.9", cargo("run", cwd=there, TSCACHE_DIR=f"{work}/lib"))
    expect("in another folder", version(), cargo("run", cwd=there, TSCACHE_DIR=out))
    if cases.has("pkg-config", "a program in Rust by pkg-config"):
        expect("by pkg-config", version(), cargo("run", cwd=there, PKG_CONFIG_PATH=out))
    shared = {"TSCACHE_DIR": out, "TSCACHE_LINK": "dylib", "LD_LIBRARY_PATH": out}
    expect("over the shared library", version(), cargo("run", cwd=there, **shared))
    of_another_version(f"{out}/{SHARED}", f"{work}/other/{SHARED}")
    env = {**os.environ, "LD_LIBRARY_PATH": f"{work}/other"}
    expect("over a shared library in its place", "9.9.9", outcome(f"{work}/built/debug/program", env=env))
    shutil.copy(f"{out}/{SHARED}", f"{work}/other/{LINK}")
    alone = {"TSCACHE_DIR": f"{work}/other", "LD_LIBRARY_PATH": out}
    expect("over a shared library alone", version(), cargo("run", cwd=there, **alone))


def is_there():
    return shutil.which("cargo") is not None


def try_all(cases, out):
    """Tests the crate over a folder with the library for C."""
    if not cases.has("cargo", "the crate for Rust"):
        return
    with temporary() as work:
        cargo, shared = Cargo(f"{work}/target"), Cargo(f"{work}/shared")
        tests(cases, cargo, "over the archive", TESTS, [], TSCACHE_DIR=out)
        dylib = {"TSCACHE_DIR": out, "TSCACHE_LINK": "dylib", "LD_LIBRARY_PATH": out}
        tests(cases, shared, "over the shared library", TESTS_OVER_SHARED, ["--tests"], **dylib)
        codes(cases, work)
        sentences(cases)
        lints(cases, cargo, out)
        examples(cases, cargo, out)
        without_library(cases, Cargo(f"{work}/without"), work)
        packed(cases, cargo)
        program(cases, work, out)


def arguments(parser):
    words_of(parser)


def run(cases, given):
    with temporary() as work:
        try_all(cases, Builds(given, work).library())
