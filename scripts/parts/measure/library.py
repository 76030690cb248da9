"""Measures lookups and Adds of single keys through the library for C, all in one run.

They are called from C, from Rust beside a map behind a mutex, from Go where `go` is, beside an empty
call of C, and in the language of this repository (`bench_cache bytes`). Where it may, what is
measured has precedence over whatever else runs (`chrt`). A build without proofs is somewhat slower.
"""
import os
import shutil

from parts.builds import Builds, words_of
from parts.frame import ROOT, call, outcome, say, temporary


def arguments(parser):
    words_of(parser)
    parser.add_argument("nodes", nargs="?", default="65536", help="the keys of a page")


def main(given):
    with temporary() as work:
        builds = Builds(given, work)
        library, bench = builds.library(), builds.program("bench_cache", "bytes", "64")
        rust, go = f"{work}/target/release/examples/speed", f"{work}/speed_go"
        call("gcc", "-O2", f"-I{library}", "bindings/c/speed.c", f"{library}/libtscache.a", "-o", f"{work}/speed")
        env = {**os.environ, "TSCACHE_DIR": library}
        words = ["cargo", "build", "--release", "--offline", "--quiet", "--target-dir", f"{work}/target"]
        call(*words, "--example", "speed", cwd=f"{ROOT}/bindings/rust", env=env)
        programs = [[f"{work}/speed"], [rust], [bench, "bytes"]]
        if shutil.which("go"):
            flags = {"CGO_CFLAGS": f"-I{library}", "CGO_LDFLAGS": f"-L{library}", "GOPROXY": "off"}
            env = {**os.environ, **flags, "GOCACHE": f"{work}/go"}
            call("go", "build", "-o", go, "./examples/speed", cwd=f"{ROOT}/bindings/go", env=env)
            programs.insert(2, [go])
        say(f"measuring, on pages of {given.nodes} keys")
        first = ["chrt", "-f", "50"] if outcome("chrt", "-f", "50", "true")[0] == 0 else []
        for words in programs:
            call(*first, *words, given.nodes, stdout=None)
        if len(programs) == 3:
            say("not run: calls from Go: go is missing")
