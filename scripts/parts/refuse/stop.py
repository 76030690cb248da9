"""Stops threads of caches that threads share, where the system may stop them.

In each test three seats have a thread each. A thread that waits stops in what stands before the
system's `sched_yield`. At a cache with two copies that is the thread of the seat which has the
writer lock, and that of one which waits for it:

- The first seat's stops in the gate of its Add, where it has the lock. It goes on once the second
  one has stopped, and the third one, which is in an Add too, has waited a thousand times: who has
  the lock makes others wait.
- The second seat's stops where it waits for the lock. It goes on once the two others have ended,
  which have made a thousand Adds each: who waits for the lock makes nobody wait, even where it was
  to go first.

In stripes it is the thread of the seat which has the lock of one stripe of three, while a second
seat calls over all of them:

- The third seat's stops before its calls. It goes on once the second one has waited a thousand
  times: who needs all stripes waits for the one that is held.
- The first seat's stops in the gate of its Add, where it has the lock of its stripe. It goes on
  once the third one has ended, which has made a thousand Adds in the other stripes: neither who has
  the lock of one stripe nor who waits for it makes anybody wait in another.

It has to come to that within a minute, and the test has to pass, with that and without it.
"""
import os
import re

from parts.builds import Builds, preloaded, words_of
from parts.frame import PARTS, read, outcome, temporary
from parts.repository import named

# What has to be told in a scene, once each.
SCENES = {
    "copies": (
        "the second seat has stopped",
        "the third seat has waited for the first one",
        "the others have ended",
    ),
    "stripes": (
        "the first seat has stopped",
        "the second seat has waited for the first one",
        "the third seat has ended",
    ),
}


def arguments(parser):
    words_of(parser)


def passes(cases, what, program, test, **env):
    status, output = outcome(program, test, env={**os.environ, **env}, seconds=200)
    is_passed = re.search("^test result: ok", output, re.M) is not None
    cases.expect(f"{test}, {what}", (status, is_passed), (0, True), told=output)


def run(cases, given):
    with temporary() as work:
        preload, builds = preloaded(work, f"{PARTS}/refuse/stop.c"), Builds(given, work)
        for number, row in enumerate(named("stop")):
            scene, crate, test = row.split()
            program, told = builds.tests(crate), f"{work}/told {number}"
            passes(cases, "no thread is stopped", program, test)
            stops = {"STOP_SCENE": scene, "STOP_TOLD": told, "LD_PRELOAD": preload}
            passes(cases, "threads are stopped", program, test, **stops)
            seen = read(told).decode().splitlines() if os.path.exists(told) else []
            for line in SCENES[scene]:
                cases.expect(f"{test}: {line}", seen.count(line), 1)
