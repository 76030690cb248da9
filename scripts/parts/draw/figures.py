"""Draws the cost of each call on a page by its size, by the lines that `bench_cache` prints."""
import math
import re

from parts.frame import text_at
from parts.svg import Svg

COST = re.compile(r"(\d+) nodes, keys of 8 bytes, (.*): \d+ operations, (\d+) ns each")
COSTS = ["lookup of a key", "lookup of the whole page", "add of a key", "add of a new key", "next with a key"]
INKS = ["strong", "cool", "warm", "sand", "faint"]


class Plot:
    """A panel with two logarithmic scales."""

    def __init__(self, picture, left, top, width, height, xs, ys):
        self.picture, self.box = picture, (left, top, width, height)
        self.xs, self.ys = xs, ys

    def x(self, value):
        left, _, width, _ = self.box
        return left + width * math.log(value / self.xs[0]) / math.log(self.xs[-1] / self.xs[0])

    def y(self, value):
        _, top, _, height = self.box
        return top + height * (1 - math.log(value / self.ys[0]) / math.log(self.ys[-1] / self.ys[0]))

    def scales(self, of_x, of_y):
        left, top, width, height = self.box
        for value in self.ys:
            self.picture.path([(left, self.y(value)), (left + width, self.y(value))], "line", 0.5)
            self.picture.text(left - 6, self.y(value) + 4, of_y(value), "faint", "end", 10)
        for value in self.xs:
            self.picture.text(self.x(value), top + height + 16, of_x(value), "faint", "middle", 10)

    def curve(self, points, colour):
        self.picture.path([(self.x(x), self.y(y)) for x, y in points], colour, 2)
        for x, y in points:
            self.picture.dot(self.x(x), self.y(y), colour)


def labels(picture, x, points):
    """Writes words at the ends of curves, so far from one another that all can be read."""
    below = None
    for y, words, colour in sorted(points):
        y = y if below is None else max(y, below + 13)
        picture.text(x, y + 4, words, colour, size=11)
        below = y


def draw_costs(picture, rows, left):
    sizes = sorted({row[0] for row in rows})
    plot = Plot(picture, left, 52, 150, 220, sizes, [50, 100, 300, 1000, 3000, 10000])
    plot.scales(lambda it: f"{it:,}", lambda it: f"{it:,}")
    picture.text(left - 40, 18, "Nanoseconds of a call, by keys on the page", "ink")
    ends = []
    for name, colour in zip(COSTS, INKS):
        points = [(row[0], row[2]) for row in rows if row[1] == name]
        plot.curve(points, colour)
        ends.append((plot.y(points[-1][1]), name, colour))
    labels(picture, left + 158, ends)


def draw_figures(told):
    costs = [(int(nodes), name, int(time)) for nodes, name, time in COST.findall(told)]
    picture = Svg()
    draw_costs(picture, costs, 60)
    return picture.svg(300)


def arguments(parser):
    parser.add_argument("lines", help="a file with what `bench_cache` printed")


def main(given):
    print(draw_figures(text_at(given.lines)))
