"""Has ThreadSanitizer look for races in the tests of the shared cache, over threads.

The program of the tests is built without proofs, and the kit's compiler puts in what the sanitizer
has to know: each access to memory, and each atomic step with its order. `gcc` links it with its own
library. Each test has to end with no race reported, or to be ended after SECONDS with none so far.
Most have to end by themselves.

The same program is built once more with all atomic steps relaxed. There races have to be reported:
so the sanitizer sees the accesses that the steps keep apart. It takes some minutes. --built names a
folder for both, `races` and `races_relaxed`.
"""
import os
import re
import tempfile

from parts.build import unproved
from parts.frame import ROOT, kit, outcome, temporary, write
from parts.repository import named

# How long a test may run.
SECONDS = 100
ATOMIC = re.compile(r"load atomic|store atomic|atomicrmw|cmpxchg")
ORDER = re.compile(r"\b(seq_cst|acq_rel|acquire|release)\b")
# What newer compilers call, and the library for `gcc` lacks.
CALLED = """#include <string.h>
void *__tsan_memcpy(void *to, const void *from, size_t size) { return memcpy(to, from, size); }
void *__tsan_memmove(void *to, const void *from, size_t size) { return memmove(to, from, size); }
void *__tsan_memset(void *to, int byte, size_t size) { return memset(to, byte, size); }
"""


def relaxed(lines):
    """A module in which all atomic steps are relaxed."""
    for line in lines:
        yield ORDER.sub("monotonic", line) if ATOMIC.search(line) else line


FORMS = {"races": lambda lines: lines, "races_relaxed": relaxed}


def compile_to(unproved, kit, work, text, out):
    """Compiles a module, and links it."""
    words = [f"{kit}/toolchain/bin/clang", f"--target={unproved.TARGET}", f"--sysroot={kit}/toolchain"]
    words += [f"-march={unproved.CPU}", "-mllvm", "-no-trap-after-noreturn", "--no-default-config", "-fPIE", "-O1", "-g1"]
    unproved.call([*words, "-fsanitize=thread", "-c", "-x", "ir", text, "-o", f"{work}/module.o"])
    write(f"{work}/called.c", CALLED)
    unproved.call(["gcc", "-O1", "-fno-builtin", "-c", f"{work}/called.c", "-o", f"{work}/called.o"])
    objects = [f"{work}/module.o", f"{work}/called.o", f"{kit}/c/libos_c.a", f"{kit}/c/liblibc_c.a"]
    unproved.call(["gcc", "-fsanitize=thread", "-pie", "-o", out, *objects, "-lpthread", "-ldl", "-lm"])


def build(crate, work, folder):
    """Builds both programs."""
    here = kit()
    unproved.ATTRIBUTES = ((" sanitize_address", " sanitize_thread"), *unproved.ATTRIBUTES[1:])
    kept = f"{work}/module.bc"
    os.mkdir(f"{work}/kit")
    unproved.module_of(f"{ROOT}/crates/{crate}", unproved.overlay(here, f"{work}/kit", kept), work, kept, True)
    for name, change in FORMS.items():
        with open(f"{work}/{name}.ll", "w", encoding="utf-8") as file:
            file.writelines(change(unproved.without_checks(unproved.readable(here, work, kept))))
        compile_to(unproved, here, work, f"{work}/{name}.ll", f"{folder}/{name}")


def races_of(program, test):
    """How many races are reported of a test, and its status, which is `None` where it was ended."""
    with tempfile.TemporaryFile("w+", errors="replace") as told:
        status, _ = outcome(program, test, stdout=told, stderr=told, seconds=SECONDS)
        told.seek(0)
        return told.read().count("WARNING: ThreadSanitizer"), status


def arguments(parser):
    parser.add_argument("--built", metavar="FOLDER", help="take the programs from there, or leave them there")


def run(cases, given):
    ((crate, control),) = (row.split() for row in named("race"))
    with temporary() as work:
        folder = os.path.abspath(given.built or work)
        if not all(os.path.exists(f"{folder}/{name}") for name in FORMS):
            build(crate, work, folder)
        listed = outcome(f"{folder}/races", "--list")[1]
        tests = re.findall(r"^(.*): test$", listed, re.M)
        cases.expect("there are tests", len(tests) > 1)
        ended = 0
        for test in tests:
            races, status = races_of(f"{folder}/races", test)
            ended += status == 0
            end = "was ended" if status is None else f"status {status}"
            cases.expect(f"{test}: {races} races, {end}", races == 0 and not status)
        cases.expect(f"most tests end: {ended} of {len(tests)}", ended > len(tests) / 2)
        races, _ = races_of(f"{folder}/races_relaxed", control)
        cases.expect(f"{control} with relaxed steps: {races} races", races > 0)
