"""Draws what a trace makes of the cache: its pages, its Adds and its floor.

Above are the pages, each from the Add that brings it in to the one that drops it, and dark while it
is the one at the front; below are the Adds, each at its time, and the floor that rises behind them.
One column is one Add, in the order of a replay.

A log has the pages, and calls of `low` the floor. So a copy of the trace is replayed in which each
mark of a batch is an Add of its own, which changes nothing of the cache, and each Add is followed by
a `low`. A trace may have 32,768 Adds for that. Of more than 2,000 Adds some alone have a dot.
"""
import json
from itertools import accumulate

from parts.builds import Builds, words_of
from parts.frame import Fault, outcome, temporary, text_at, write
from parts.svg import WIDTH, Svg

LEFT, RIGHT, TOP = 70, 16, 34
BAR, MOST_BARS, MOST_DOTS, BARS_HEIGHT, TIMES_HEIGHT, GAP = 16, 24, 2000, 120, 150, 44


def adds_of(trace):
    """The Adds of a trace in the order of a replay, with a batch as an Add for each of its marks.
    """
    for call in (call for calls in trace["threads"] for call in calls):
        if call["op"] == "add":
            yield call
        elif call["op"] == "batch":
            for mark in call["marks"]:
                yield {"op": "add", "now": call["now"], **mark}


def replay(program, trace):
    """The lines of a replay's log, each as its fields."""
    with temporary() as work:
        write(f"{work}/trace.json", json.dumps(trace))
        status, log = outcome(program, "replay", f"{work}/trace.json")
    if status:
        raise Fault(f"the trace, or its copy with calls of `low`, was refused: {log.strip()}", status or 1)
    return [line.split(" ") for line in log.splitlines()]


def lives_of(lines):
    """Of each page, oldest first: the Add that brings it in, the one behind which another is at the
    front, and the one that drops it."""
    came, went = [0], []
    for place, line in enumerate(lines):
        went += [place] * int(line[6])
        if line[5] == "1":
            came.append(place)
    ends = len(lines)
    fronts = came[1:] + [ends]
    went += [ends] * (len(came) - len(went))
    return list(zip(came, fronts, went))


class Columns:
    """A picture whose columns are Adds."""

    def __init__(self, count):
        self.count, self.svg = max(count, 1), Svg()

    def x(self, column):
        return LEFT + (WIDTH - LEFT - RIGHT) * column / self.count

    def bar(self, first, last, y, colour):
        self.svg.rect(self.x(first), y, max(self.x(last) - self.x(first), 0.5), BAR, colour)

    def steps(self, heights, colour):
        self.svg.steps([(self.x(i), y) for i, y in enumerate(heights)], self.x(len(heights)), colour)

    def label(self, y, words):
        self.svg.text(LEFT - 8, y, words, anchor="end")


def draw_lives(columns, lives, top):
    """Draws the pages as bars, or as their number where they are many, and returns the place below
    them."""
    if len(lives) <= MOST_BARS:
        for row, (came, front, went) in enumerate(lives):
            y = top + row * (BAR + 4)
            columns.bar(came, went, y, "soft")
            columns.bar(came, front, y, "strong")
            columns.label(y + BAR - 4, f"page {row + 1}")
        return top + len(lives) * (BAR + 4)
    change = [0] * (columns.count + 1)
    for came, _, went in lives:
        change[came] += 1
        change[went] -= 1
    counts = list(accumulate(change))[: columns.count]
    most = max(counts)
    columns.steps([top + BARS_HEIGHT * (1 - count / most) for count in counts], "strong")
    columns.label(top + 4, f"{most}")
    columns.label(top + BARS_HEIGHT, "0")
    return top + BARS_HEIGHT


def draw_times(columns, times, floors, top):
    """Draws the Adds at their times, and the floor."""
    least, most = min(times + floors), max(times + floors)
    y = lambda time: top + TIMES_HEIGHT * (1 - (time - least) / max(most - least, 1e-9))
    for column in range(0, len(times), 1 + len(times) // MOST_DOTS):
        columns.svg.dot(columns.x(column + 0.5), y(times[column]), "faint")
    columns.steps([y(floor) for floor in floors], "warm")
    columns.label(y(most) + 4, f"{most:.0f}")
    columns.label(y(least) + 4, f"{least:.0f}")


def draw_pages(program, text):
    trace = json.loads(text)
    adds = list(adds_of(trace))
    if not adds:
        raise Fault("a trace without Adds makes no picture", 1)
    lines = replay(program, {**trace, "threads": [[call for add in adds for call in (add, {"op": "low"})]]})
    times = [wall + logical / 2**31 for wall, logical in (add["time"] for add in adds)]
    floors = [int(wall) + int(logical) / 2**31 for wall, logical in (low[4].split(".") for low in lines[1::2])]
    columns, lives = Columns(len(adds)), lives_of(lines[::2])
    pages = "the pages, dark while at the front" if len(lives) <= MOST_BARS else "the number of pages"
    columns.svg.text(LEFT, 20, f"{len(adds)} Adds from left to right: {pages}", "strong")
    below = draw_lives(columns, lives, TOP)
    columns.svg.text(LEFT, below + GAP - 14, "the times of the Adds, and the floor", "warm")
    draw_times(columns, times, floors, below + GAP)
    return columns.svg.svg(below + GAP + TIMES_HEIGHT + 20)


def arguments(parser):
    words_of(parser)
    parser.add_argument("trace")


def main(given):
    with temporary() as work:
        print(draw_pages(Builds(given, work).program(), text_at(given.trace)))
