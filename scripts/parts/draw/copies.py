"""Draws the two copies of a shared cache during a run, of which the trace and the log are given.

A log of a run does not say which Adds one swap of the copies published together, so the picture has
a swap for each Add.
"""
import json

from parts.frame import Fault, text_at
from parts.svg import WIDTH, Svg

ROW, LEFT, ADD_WIDTH = 30, 62, 46
# How many lookups side by side an interval between two Adds has room for, at the least.
LEAST = 1.4


def spans_of(lines, adds):
    """Returns where each interval between Adds begins, the width of a call, and the end."""
    calls = [[0] * (adds + 1) for _ in range(1 + max(int(line[0]) for line in lines))]
    for line in lines:
        if line[2] in ("get", "low"):
            calls[int(line[0])][int(line[3])] += 1
    slots = [max(LEAST, *(row[at] for row in calls)) for at in range(adds + 1)]
    unit = (WIDTH - LEFT - 12 - ADD_WIDTH * adds) / sum(slots)
    starts = [LEFT + unit * sum(slots[:at]) + ADD_WIDTH * at for at in range(adds + 1)]
    return starts, unit, WIDTH - 12


def draw_copies(trace, log):
    ops = [call["op"] for call in sum(json.loads(trace)["threads"], [])]
    lines = [line.split(" ") for line in log.splitlines()]
    if [line[2] for line in lines] != ops:
        raise Fault("this is no log of the trace", 1)
    adds = {int(line[3]): int(line[0]) for line in lines if line[2] in ("add", "batch")}
    starts, unit, end = spans_of(lines, len(adds))
    seats = 1 + max(adds.values(), default=0)
    seats = max(seats, 1 + max(int(line[0]) for line in lines))
    picture = Svg()
    side = lambda number: 50 + number * (ROW + 10)
    seat = lambda number: 150 + number * (ROW + 16)
    bottom = seat(seats) - 8
    picture.text(LEFT, 18, f"A run of {seats} lists: {len(adds)} Adds and {len(ops) - len(adds)} lookups, time to the right")
    for number in (0, 1):
        picture.text(LEFT - 8, side(number) + 19, f"side {number}", "ink", "end")
    for number in range(seats):
        picture.text(LEFT - 8, seat(number) + 19, f"seat {number}", "ink", "end")
    for flips, start in enumerate(starts):
        until = starts[flips + 1] if flips < len(adds) else end
        draw_sides(picture, flips, start, until, side)
        if flips < len(adds):
            draw_add(picture, flips, until, seat(adds[flips]), side((flips + 1) % 2), bottom)
    draw_lookups(picture, lines, starts, unit, seat, side)
    picture.text(LEFT, bottom + 14, "bright or dark: the active side; pale: the standby side, which lags by the last Add", "strong", size=11)
    picture.text(LEFT, bottom + 30, "red: a writer brings the standby side up to date and adds, then swaps the sides, here for each Add", "warm", size=11)
    picture.text(LEFT, bottom + 46, "green: a lookup on the active side; its seat's epoch is odd meanwhile", "cool", size=11)
    return picture.svg(bottom + 58)


def draw_sides(picture, flips, start, until, side):
    """Draws what each side has between two flips, and the active side."""
    picture.text(start + 2, 42, f"side {flips % 2} active", "faint", size=10)
    for number in (0, 1):
        active = flips % 2 == number
        y, colour = side(number), "strong" if active else "soft"
        picture.rect(start, y, until - start - 2, ROW, colour, "" if active else ' opacity="0.55"')
        has = flips if active else max(flips - 1, 0)
        words = " ".join(["Add" if has == 1 else "Adds", *map(str, range(has))]) if has else "no Add"
        picture.text(start + 5, y + 19, words, "back" if active else "ink", size=11)


def draw_add(picture, place, until, y, side, bottom):
    """Draws an Add of a seat, up to the swap that publishes it."""
    left = until - ADD_WIDTH + 4
    picture.rect(left, y, ADD_WIDTH - 6, ROW, "warm")
    picture.text(left + (ADD_WIDTH - 6) / 2, y + 19, f"Add {place}", "back", "middle", 10)
    picture.arrow(left + 8, y - 2, side + ROW + 2, "warm")
    picture.path([(until - 1, 36), (until - 1, bottom)], "warm", 1, ' stroke-dasharray="2 3"')


def draw_lookups(picture, lines, starts, unit, seat, side):
    """Draws each lookup below the side that it reads, and the epochs of its seat."""
    epochs, counts = {}, {}
    for line in lines:
        if line[2] not in ("get", "low"):
            continue
        number, head = int(line[0]), int(line[3])
        place = counts.get((number, head), 0)
        counts[number, head] = place + 1
        epoch = epochs[number] = epochs.get(number, -1) + 2
        x, y = starts[head] + unit * place + 3, seat(number)
        width = min(unit - 8, 44)
        picture.rect(x, y, width, ROW, "cool")
        picture.text(x + width / 2, y + 19, str(epoch), "back", "middle", 11)
        picture.arrow(x + width / 2 + number * 4, y - 2, side(head % 2) + ROW + 2, "cool")


def arguments(parser):
    parser.add_argument("trace")
    parser.add_argument("log")


def main(given):
    print(draw_copies(*map(text_at, (given.trace, given.log))))
