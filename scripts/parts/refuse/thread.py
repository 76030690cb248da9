"""Refuses each thread of the command `run` in turn.

The first run cannot start its first thread, the second one its second, and so on, until a run starts
all. Each refused run has to end with status 4, the line `no thread` and nothing written, within a
minute; the last one with status 0 and a log that is right. Memory is never refused. It ends with the
first run that ends otherwise.
"""
import os

from parts.builds import Builds, preloaded, words_of
from parts.frame import PARTS, ROOT, outcome, temporary, write


def arguments(parser):
    words_of(parser)
    parser.add_argument("trace", nargs="?", default=f"{ROOT}/examples/two_threads.json")


def run(cases, given):
    with temporary() as work:
        preload = preloaded(work, f"{PARTS}/refuse/thread.c")
        program, told = Builds(given, work).program(), f"{work}/told"
        # (errors go to a file, so that nothing written means nothing)
        words = ["sh", "-c", 'LD_PRELOAD=$1 exec "$2" run "$3" 2>"$4"', "sh", preload, program, given.trace, f"{work}/errors"]
        thread = 1
        while True:
            env = {**os.environ, "REFUSE_AT": str(thread), "REFUSE_TOLD": told}
            status, output = outcome(*words, env=env, seconds=60)
            with open(f"{work}/errors", encoding="utf-8") as file:
                errors = file.read()
            if not os.path.exists(told):
                break
            os.remove(told)
            if not cases.expect(f"run: thread {thread} refused", (status, output, errors), (4, "", "no thread\n")):
                return
            thread += 1
        cases.expect("run: a thread is refused", thread > 1)
        write(f"{work}/log", output)
        verdict = outcome(program, "check", given.trace, f"{work}/log")
        cases.expect("run: with none refused its log is right", (status, errors, verdict), (0, "", (0, "right\n")))
