"""Draws calls a second for each form of the cache, by the lines of `bench_cache forms`.

A column is a share of lookups, a row a number of keys; in each a line for each form goes from one
thread to four.
"""
import re

from parts.draw.figures import Plot
from parts.frame import Fault, text_at
from parts.svg import Svg

RATE = re.compile(r"(\d+) nodes, ([^,]+), (\d+) threads, (\d+) lookups of 100: (\d+) \((\d+) to (\d+)\) calls a second")
# Each form by its name in the lines, with its colour.
FORMS = {"one lock": "warm", "64 stripes": "sand", "two copies": "strong", "a cache a thread": "cool"}
SHARES = (100, 95, 50, 5)
LEFT, TOP, WIDTH, HEIGHT, GAP = 44, 76, 148, 130, 22
# The scale of calls a second, where all are on it.
RATES = [2e5, 5e5, 1e6, 2e6, 5e6, 1e7, 2e7, 4e7]
OTHERS = re.compile(r"^# with ([\d.]+) other threads at work", re.M)


def rates_of(told):
    """Returns the calls a second of each number of nodes, form, number of threads, and share."""
    rows = {(int(nodes), name, int(threads), int(share)): int(rate) for nodes, name, threads, share, rate, _, _ in RATE.findall(told)}
    if not rows or {name for _, name, _, _ in rows} != set(FORMS):
        raise Fault("there are no lines of `bench_cache forms`, or of other forms")
    return rows


def conditions(told):
    """Returns what else the machine did, in words."""
    others = OTHERS.search(told)
    if not others:
        raise Fault("the lines don't say what else the machine did")
    number = f"{float(others[1]):.0f}"
    few = {"0": "nothing else", "1": "one other thread"}
    return f"{few.get(number) or f'{number} other threads'} at work"


def draw_forms(told):
    rows = rates_of(told)
    low = [1e4, 2e4, 5e4, 1e5]
    rates = [it for it in low if it >= min(rows.values()) / 3] + RATES if min(rows.values()) < RATES[0] else RATES
    sizes, threads = (sorted({row[i] for row in rows}) for i in (0, 2))
    picture = Svg()
    picture.text(LEFT - 30, 18, f"Millions of calls a second of all threads, by threads ({conditions(told)})")
    for i, (name, colour) in enumerate(FORMS.items()):
        picture.dot(LEFT - 24 + i * 150, 38, colour)
        picture.text(LEFT - 14 + i * 150, 42, name, colour, size=11)
    for row, nodes in enumerate(sizes):
        for column, share in enumerate(SHARES):
            left, top = LEFT + column * (WIDTH + GAP), TOP + row * (HEIGHT + 56)
            plot = Plot(picture, left, top, WIDTH, HEIGHT, threads, rates)
            plot.scales(str, lambda it: "" if column else f"{it / 1e6:g}")
            picture.text(left, top - 8, f"{share} lookups of 100" + ("" if column else f", {nodes:,} keys"), "ink", size=10)
            for name, colour in FORMS.items():
                plot.curve([(it, rows[nodes, name, it, share]) for it in threads], colour)
    return picture.svg(TOP + len(sizes) * (HEIGHT + 56) - 14)


def arguments(parser):
    parser.add_argument("lines", help="a file with what `bench_cache forms` printed")


def main(given):
    print(draw_forms(text_at(given.lines)))
