"""Tests the library for C and the header for C++, and what stands on them in Rust and Go.

The programs in C, of which one has threads share a cache and one replays and checks traces, run
plainly and under gcc's sanitizers of addresses, leaks and undefined behaviour, which have to find
such faults. A program is built by what `pkg-config` says, and another counts for how many bytes calls
ask. The programs in C++ run in the same ways, built by g++ and by clang++, and those with threads
under gcc's ThreadSanitizer. `scripts/test rust` and `scripts/test go` follow.
"""
import os
import re
import shlex
import signal

from parts.builds import Builds, words_of
from parts.frame import ROOT, outcome, temporary, text_at, text_of, write
from parts.repository import blocks, number_of, version
from parts.test import go, rust

SANITIZE = ["-g", "-fsanitize=address,leak,undefined", "-fno-sanitize-recover=all"]
ARCHIVE, SHARED = "libtscache.a", "libtscache.so.0"
WRAP = ["-Wl,--wrap=malloc,--wrap=realloc"]
THREADS = ["-pthread"]
EXAMPLES, ROWS = f'-DEXAMPLES="{ROOT}/examples"', f'-DROWS="{ROOT}/bindings/rows.txt"'
TWICE = {"as they are": [], "under sanitizers": SANITIZE}
# The programs in C: a source, what it is about, its flags, and how many cases pass today at the
# least, plainly and under sanitizers.
C_PROGRAMS = [
    ("test_tscache.c", "", WRAP, 827, 825),
    ("test_seats.c", "threads, ", THREADS, 180, 180),
    ("test_texts.c", "texts, ", [EXAMPLES, *WRAP], 68, 68),
    ("test_leases.c", "leases, ", WRAP, 99, 99),
    ("test_rows.c", "rows, ", [ROWS], 2348, 2348),
    ("store.c", "a store with threads, ", THREADS, 3, 3),
]
# Those that run once, with the form of the library.
C_ONCE = [
    ("test_memory.c", "memory", WRAP, 47, ARCHIVE),
    ("test_rows.c", "rows, by calls that test for null", [ROWS, "-DCHECKED"], 2348, ARCHIVE),
    ("test_rows.c", "rows, over the shared library", [ROWS], 2348, SHARED),
    ("test_seats.c", "threads, over the shared library", THREADS, 180, SHARED),
    ("test_leaks.c", "what is left behind", [], 24, ARCHIVE),
]
STRICT_CPP = ["-Wall", "-Wextra", "-Wpedantic", "-Werror", "-Wold-style-cast"]
# The programs in C++: what each is about, and how many cases pass today at the least.
CPP_PROGRAMS = {"test_rows.cc": ("rows", 2348), "test_owners.cc": ("owners", 504), "store.cc": ("a store with threads", 2)}
LEAST_OF_RUST, LEAST_OF_GO = 172, 196
# How many calls of the header have an answer that must be looked at.
ANSWERS = 38
CPP = """#include "tscache.h"
int main() {
    tsc_store p = TSC_STORE_INIT;
    tsc_time t = {20, INT32_MAX}, next = {0, 0}, last = {INT64_MAX, INT32_MAX};
    bool in_order = tsc_next(t, &next) && next.wall == 21 && next.logical == 0 && tsc_before(t, next) && !tsc_before(next, t);
    tsc_free(&p);
    bool of_one_version = TSC_VERSION == WANTED && tsc_version() == WANTED;
    return in_order && of_one_version && !tsc_next(last, &next) && tsc_close(&p, 0) == TSC_CLOSED ? 0 : 1;
}
"""
# Each of these lines drops an answer that a store has to look at.
DROPPED = """#include "tscache.hpp"
using namespace tscache;
void drops(Cache &cache, Seat &seat, Shared &shared, Span span, Value read, Time now)
{
    cache.add(span, read, now);
    cache.add_all({{span, read}}, now);
    cache.get_max(span);
    cache.earliest_write(span, now, read.owner);
    cache.may_write(span, now, read.owner);
    cache.low_water();
    cache.summary(span);
    cache.apply("", now);
    seat.add(span, read, now);
    seat.add_all({{span, read}}, now);
    seat.get_max(span);
    seat.earliest_write(span, now, read.owner);
    seat.may_write(span, now, read.owner);
    seat.low_water();
    seat.summary(span);
    shared.close();
    Cache::open({});
    Shared::open({}, 1);
    Shared::open_striped({}, {}, 1);
    auto unread = cache.add(span, read, now);
    auto unasked = seat.may_write(span, now, read.owner);
}
"""
# The examples in C: that of the header, which frees its store, and those of EMBEDDING.
C_EXAMPLES = """#include "tscache.h"
static tsc_store store = TSC_STORE_INIT;
static tsc_added added;
static int header(void)
{
%s    return latest.wall != 20 || store.at;
}
static int read_and_write(uint64_t cache)
{
%s    return at.wall != 200 || at.logical != 1;
}
static int hand_over(uint64_t former, tsc_time start, tsc_time now)
{
    uint8_t summary[4096];
    size_t room = sizeof summary, len = 0;
    uint64_t next;
%s    return !added.kept;
}
int main(void)
{
    tsc_time low = {5, 0}, now = {300, 0};
    uint64_t cache;
    if (tsc_open(&store, 4096, 65536, 2, 10000000000, &low, &cache))
        return 2;
    int wrong = read_and_write(cache) || hand_over(cache, low, now);
    tsc_free(&store);
    return wrong || header();
}
"""
UNTHROWN = """#include "tscache.hpp"
int main() { tscache::Cache nothing; return nothing.low_water().value() == tscache::Time{0}; }
"""
EXAMPLE = """#include "tscache.hpp"
tscache::Time told;
void example(tscache::Owner reader, tscache::Owner writer)
{
%s    told = at;
}
int main()
{
    example(tscache::Owner::Bytes{1}, tscache::Owner::Bytes{2});
    return told == tscache::Time{20, 1} ? 0 : 1;
}
"""
IN_DOCUMENTS = """#include "tscache.hpp"
using tscache::Cache, tscache::Owner, tscache::Time;
void refuse();
void examples(Cache &cache, Cache &former, tscache::Config config, Owner reader, Owner writer, Time now)
{
%s}
"""
# (of two accesses in the very same moment the sanitizer may see none)
RACE = """#include <thread>
int count;
void add() { for (int turn = 0; turn < 10000; turn++) count++; }
int main() { std::thread other(add); add(); other.join(); return 0; }
"""
# What the sanitizers have to find, and by which word.
FAULTS = {
    "a read behind a block": ("char *volatile block = malloc(1); return block[words];", "heap-buffer-overflow"),
    "a block that is not freed": ("return malloc((size_t)words) == NULL;", "detected memory leaks"),
    "a sum that has no result": ("return INT_MAX - 1 + words + words < 0;", "signed integer overflow"),
}
FAULT = "#include <limits.h>\n#include <stdlib.h>\nint main(int words, char **word) { (void)word; %s }\n"


class Library:
    """A folder with the library for C, the cases of its tests, and a folder for what they build."""

    def __init__(self, cases, out, work):
        self.cases, self.out, self.work = cases, out, work

    def linked(self, form=ARCHIVE):
        """Returns the flags by which a form of the library is linked, and found again."""
        if form == ARCHIVE:
            return [f"-I{self.out}", f"{self.out}/{ARCHIVE}"]
        return [f"-I{self.out}", f"-L{self.out}", "-ltscache", f"-Wl,-rpath,{self.out}"]

    def built_and_run(self, *words, runner=(), **how):
        """Builds a program and runs it, and returns how the first of both ended that failed."""
        ended = outcome(*words, "-o", f"{self.work}/program")
        return ended if ended[0] else outcome(*runner, f"{self.work}/program", **how)

    def program(self, what, words, least, **how):
        """Builds a program and runs it, and adds what its last line counts."""
        self.cases.take(what, self.built_and_run(*words, **how), least)

    def expect_well(self, what, ended):
        self.cases.expect(what, ended[0] == 0, told=ended[1])

    def c_program(self, source, what, flags, least, form=ARCHIVE):
        words = ["gcc", "-std=c11", "-Wall", "-Wextra", "-Werror", "-O1", *flags]
        self.program(f"C, {what}", [*words, f"{ROOT}/bindings/c/{source}", *self.linked(form)], least)


def c_programs(it):
    for source, what, flags, *least in C_PROGRAMS:
        for (how, sanitize), number in zip(TWICE.items(), least):
            it.c_program(source, f"{what}{how}", flags + sanitize, number)
    for source, what, flags, least, form in C_ONCE:
        it.c_program(source, what, flags, least, form)
    # What the library tells of itself is so, in both forms.
    proved = int("without proofs" not in text_at(f"{it.out}/tscache.pc"))
    words = [f"-DNUMBER={number_of(version())}", f"-DPROVED={proved}", f'-DVERSION="{version()}"']
    words.append(f'-DKIT="{outcome("rt", "version")[1].strip()}"')
    for form in (ARCHIVE, SHARED):
        it.c_program("test_built.c", f"what was built, {form}", words, 6, form)


def sanitizers(it):
    """What some programs run under finds what it is for."""
    for what, (text, word) in FAULTS.items():
        write(f"{it.work}/faulty.c", FAULT % text)
        status, told = it.built_and_run("gcc", "-std=c11", "-O1", *SANITIZE, f"{it.work}/faulty.c")
        it.cases.expect(f"C, sanitizers find {what}", status != 0 and word in told, told=told)


def declared():
    """Returns the names of the header's calls, sorted."""
    text = re.sub(r"/\*.*?\*/", "", text_of("include/tscache.h"), flags=re.S)
    call = r"^(?:TSC_NODISCARD\s+)?(?:uint32_t |void |const tsc_build \*)(tsc_\w+)\([^;{]*\);"
    return sorted(re.findall(call, text, re.M))


def names(it):
    """The archive has the names that the header declares, and no others that another library may have too.

    The shared library shows these names alone, of one version, and asks libc alone.
    """
    status, told = outcome("nm", "--defined-only", "--extern-only", f"{it.out}/{ARCHIVE}")
    has = status, sorted(re.findall(r"^[0-9a-f]+ [A-Z] (\w+)$", told, re.M))
    it.cases.expect("C, the header declares calls", len(declared()) > 0)
    it.cases.expect(f"C, the names of {len(declared())} calls", has, (0, declared()))
    node = f"TSCACHE_{version().rpartition('.')[0]}"
    _, told = outcome("nm", "-D", "--defined-only", f"{it.out}/{SHARED}")
    shown = sorted(re.findall(r"^[0-9a-f]+ ([A-Z] .*)$", told, re.M))
    _, dynamic = outcome("readelf", "-dW", f"{it.out}/{SHARED}")
    link = f"{it.out}/libtscache.so"
    for what, got, wanted in (
        ("the names", [name for name in shown if not name.startswith("A ")], [f"T {name}@@{node}" for name in declared()]),
        ("its name", re.findall(r"\(SONAME\).*\[(.*)\]", dynamic), [SHARED]),
        ("what it asks", re.findall(r"\(NEEDED\).*\[(.*)\]", dynamic), ["libc.so.6"]),
        ("its code stays as it is", "TEXTREL" in dynamic, False),
        ("the link to it", os.path.islink(link) and os.readlink(link), SHARED),
    ):
        it.cases.expect(f"C, the shared library: {what}", got, wanted)


def dropped_answers(it):
    """The compiler tells of each call whose answer must be looked at, where a program drops it."""
    pattern = r"^TSC_NODISCARD\n(?:static inline )?uint32_t (tsc_\w+)\(([^)]*)\)"
    marked = re.findall(pattern, text_of("include/tscache.h"), re.M)
    lines = "".join(f"    {name}({', '.join('0' for _ in given.split(','))});\n" for name, given in marked)
    write(f"{it.work}/dropped.c", f'#include "tscache.h"\nvoid drop(void)\n{{\n{lines}}}\n')
    for compiler in ("gcc", "clang"):
        if it.cases.has(compiler, "dropped answers in C"):
            words = ["-std=c11", "-Wno-nonnull", "-c", f"-I{ROOT}/include", "-o", f"{it.work}/dropped.o"]
            told = outcome(compiler, *words, f"{it.work}/dropped.c")[1]
            seen = len(set(re.findall(r"dropped\.c:(\d+):.*unused-result", told)))
            it.cases.expect(f"C, {compiler} tells of each dropped answer", (len(marked), seen), (ANSWERS, ANSWERS), told)


def c_examples(it):
    """The header's example and those of EMBEDDING answer as they say."""
    header = text_of("include/tscache.h").partition("#ifndef")[0]
    shown = "".join(re.findall(r"^ \* ( {4}.*\n)", header, re.M)).partition("    tsc_store store")
    # (behind the example come lists, whose lines begin with as many spaces)
    example = f"{shown[1]}{shown[2].partition('tsc_free(&store);')[0]}    tsc_free(&store);\n"
    texts = [example, *blocks(text_of("docs/EMBEDDING.md"), "c")]
    it.cases.expect("C, three examples in the header and in EMBEDDING", len(texts), 3)
    write(f"{it.work}/use.c", C_EXAMPLES % tuple((texts + ["", ""])[:3]))
    words = ["gcc", "-std=c11", "-Wall", "-Wno-misleading-indentation", "-Werror", f"{it.work}/use.c"]
    it.expect_well("C, the examples", it.built_and_run(*words, *it.linked()))


def pkg_config(it):
    if not it.cases.has("pkg-config", "a program in C by pkg-config"):
        return
    call = "tsc_store p = {0}; tsc_free(&p); return tsc_close(&p, 0) == TSC_CLOSED ? 0 : 1;"
    write(f"{it.work}/use.c", f"#include <tscache.h>\nint main(void) {{ {call} }}\n")
    for form in ("tscache", "tscache-shared"):
        env = {**os.environ, "PKG_CONFIG_PATH": it.out, "LD_LIBRARY_PATH": it.out}
        ended = outcome("pkg-config", "--cflags", "--libs", form, env=env)
        if not ended[0]:
            words = ["gcc", "-std=c11", "-Wall", "-Wextra", "-Werror", f"{it.work}/use.c", *shlex.split(ended[1])]
            ended = it.built_and_run(*words, env=env)
        it.expect_well(f"C, by pkg-config of {form}", ended)


def cpp_header(it):
    write(f"{it.work}/use.cc", CPP)
    words = ["g++", "-std=c++11", "-Wall", "-Wextra", "-Werror", "-pedantic", "-Wold-style-cast"]
    words += [f"-DWANTED={number_of(version())}", f"{it.work}/use.cc", *it.linked()]
    it.expect_well("C++, the header, and its version", it.built_and_run(*words))


def cpp(it):
    """The header for C++, and the programs over it."""
    for compiler in ("g++", "clang++"):
        if not it.cases.has(compiler, f"what {compiler} builds in C++"):
            continue
        for source, (what, least) in CPP_PROGRAMS.items():
            words = [compiler, *STRICT_CPP, ROWS, f"{ROOT}/bindings/cpp/{source}"]
            whole = [*words, "-std=c++17", "-pthread", *it.linked()]
            it.program(f"C++ by {compiler}, {what}", [*whole, "-O1"], least)
            it.expect_well(f"C++20 by {compiler}, {what}", outcome(*words, "-std=c++20", "-fsyntax-only", f"-I{it.out}"))
            if compiler == "g++":
                it.program(f"C++, {what}, under sanitizers", [*whole, *SANITIZE], least)
        cpp_answers(it, compiler)
    write(f"{it.work}/use.cc", IN_DOCUMENTS % "".join(blocks(text_of("docs/EMBEDDING.md"), "cpp")))
    status, told = outcome("g++", "-std=c++17", "-Wall", "-Wextra", "-fsyntax-only", f"-I{it.out}", f"{it.work}/use.cc")
    it.cases.expect("C++, the examples of EMBEDDING", status == 0 and "unused-result" not in told, told=told)
    words = ["g++", "-std=c++17", "-pthread", f"{ROOT}/bindings/cpp/store.cc", *it.linked(SHARED)]
    it.program("C++, a store with threads, over the shared library", words, CPP_PROGRAMS["store.cc"][1])
    cpp_threads(it)


def cpp_answers(it, compiler):
    """A dropped answer is warned of, one that is not there ends a program without exceptions, and
    the header's example tells the truth."""
    write(f"{it.work}/dropped.cc", DROPPED)
    status, told = outcome(compiler, "-std=c++17", "-Wall", "-fsyntax-only", f"-I{it.out}", f"{it.work}/dropped.cc")
    warned = {int(line) for line in re.findall(r"dropped\.cc:(\d+):\d+: warning: .*(?:nodiscard|unused variable)", told)}
    wanted = {number for number, line in enumerate(DROPPED.split("\n"), 1) if line.startswith("    ")}
    it.cases.expect(f"C++ by {compiler}, a warning of each dropped answer", (status, warned), (0, wanted), told)
    words = [compiler, "-std=c++17", *STRICT_CPP, f"{it.work}/use.cc", *it.linked()]
    write(f"{it.work}/use.cc", UNTHROWN)
    wanted = -signal.SIGABRT, "tscache: the handle names nothing of this kind\n"
    ended = it.built_and_run(*words, "-fno-exceptions", "-fno-rtti")
    it.cases.expect(f"C++ by {compiler}, without exceptions", ended, wanted)
    header = text_at(f"{it.out}/tscache.hpp").partition("#ifndef")[0]
    write(f"{it.work}/use.cc", EXAMPLE % "".join(re.findall(r"^/// ( {4}.*\n)", header, re.M)))
    it.expect_well(f"C++ by {compiler}, the example of the header", it.built_and_run(*words))


def cpp_threads(it):
    """The programs with threads under ThreadSanitizer, which finds no race in them, and one where
    there is one."""
    write(f"{it.work}/race.cc", RACE)
    words = ["g++", "-std=c++17", "-g", "-fsanitize=thread", "-pthread"]
    if outcome(*words, f"{it.work}/race.cc", "-o", f"{it.work}/race")[0]:
        it.cases.not_run("C++ under ThreadSanitizer: that of g++ is missing")
        return
    # (a kernel that places programs anew each time may place one where this sanitizer can't work)
    status, told = outcome("setarch", "-R", f"{it.work}/race")
    it.cases.expect("C++, ThreadSanitizer finds a race", status != 0 and "data race" in told, told=told)
    env = {**os.environ, "TSAN_OPTIONS": f"suppressions={ROOT}/packaging/tsan.supp"}
    for source in ("test_owners.cc", "store.cc"):
        what, least = CPP_PROGRAMS[source]
        file = [f"{ROOT}/bindings/cpp/{source}", *it.linked()]
        it.program(f"C++, {what}, under ThreadSanitizer", [*words, *file], least, runner=("setarch", "-R"), env=env)


def arguments(parser):
    words_of(parser)


def run(cases, given):
    with temporary() as work:
        out = Builds(given, work).library()
        it = Library(cases, out, work)
        for part in (c_programs, c_examples, sanitizers, names, dropped_answers, cpp_header, cpp, pkg_config):
            part(it)
        for what, least, language in (("Rust", LEAST_OF_RUST, rust), ("Go", LEAST_OF_GO, go)):
            before = cases.passed
            language.try_all(cases, out)
            if language.is_there():
                cases.expect(f"{what}: at least {least} cases pass", cases.passed - before >= least)
