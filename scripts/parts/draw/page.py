"""Draws a page after the Adds of a trace, as `scripts/draw inside` prints it."""
import json

from parts.frame import text_at
from parts.svg import WIDTH, Svg

LEFT, TOP, HEIGHT, LEAF_GAP = 44, 122, 130, 14


class Leaf:
    """A leaf of a page: its joint and its lazy time, and the keys with what these and gaps have."""

    def __init__(self, joint, lazy):
        self.joint, self.lazy = wall_of(joint), wall_of(lazy)
        self.keys, self.values = [], []


def wall_of(time):
    return None if time == "none" else int(time.partition(".")[0])


def leaves_of(page):
    """Returns the leaves that the lines of a page say."""
    leaves = []
    for words in map(str.split, page.splitlines()):
        if words[0] == "leaf":
            leaves.append(Leaf(words[1], words[words.index("lazy") + 1]))
        else:
            leaves[-1].keys.append(words[0])
            leaves[-1].values.append((wall_of(words[1]), wall_of(words[3])))
    return leaves


def draw_page(trace, page):
    adds = [call for call in sum(json.loads(trace)["threads"], []) if call["op"] == "add"]
    leaves = leaves_of(page)
    count = sum(len(leaf.keys) for leaf in leaves)
    picture = Svg()
    last = [f"[{it['span']['start']}, {it['span']['end']}) at {it['time'][0]}" for it in adds]
    picture.text(LEFT, 18, f"A page of {count} keys in {len(leaves)} leaves, after Adds of {' and of '.join(last)}")
    step = (WIDTH - LEFT - 12 - LEAF_GAP * (len(leaves) - 1)) / count
    most = max(it.joint for it in leaves)
    y = lambda time: TOP + HEIGHT * (1 - time / most)
    for time in range(0, most + 1, 10):
        picture.path([(LEFT - 4, y(time)), (WIDTH - 12, y(time))], "line", 0.5)
        picture.text(LEFT - 8, y(time) + 4, str(time), "faint", "end", 10)
    picture.text(LEFT - 8, 44, "root", "faint", "end", 10)
    left = LEFT
    for leaf in leaves:
        width = step * len(leaf.keys)
        picture.frame(left, 30, width, 52, "strong")
        picture.text(left + 6, 46, f"from {leaf.keys[0]}", "ink", size=11)
        picture.text(left + 6, 60, f"joint {leaf.joint}", "ink", size=11)
        if leaf.lazy is not None:
            picture.text(left + 6, 74, f"lazy {leaf.lazy}", "warm", size=11)
        picture.arrow(left + width / 2, 84, TOP - 12, "line" if leaf.lazy is not None else "strong")
        for place, (key, gap) in enumerate(leaf.values):
            x = left + step * place
            picture.rect(x, y(gap), step * 0.9, y(0) - y(gap), "soft")
            picture.rect(x, y(key), step * 0.4, y(0) - y(key), "strong")
        if leaf.lazy is not None:
            at = y(leaf.lazy)
            picture.path([(left, at), (left + width, at)], "warm", 2, ' stroke-dasharray="5 3"')
        left += width + LEAF_GAP
    below = TOP + HEIGHT + 20
    picture.text(LEFT, below, "narrow bars: what the key of a node has; wide bars: the gap behind it", "strong", size=11)
    picture.text(LEFT, below + 16, "dashed: the lazy value of a whole leaf; a lookup joins it with what a node has", "warm", size=11)
    return picture.svg(below + 28)


def arguments(parser):
    parser.add_argument("trace")
    parser.add_argument("page")


def main(given):
    print(draw_page(*map(text_at, (given.trace, given.page))))
