"""Pictures as SVG, in colours that suit light and dark pages."""
from html import escape

WIDTH = 720
COLOURS = {
    "ink": ("#333", "#ddd"),
    "faint": ("#777", "#9a9a9a"),
    "line": ("#ccc", "#444"),
    "strong": ("#4a3a8c", "#a99bf0"),
    "soft": ("#b9b0e0", "#5a4f8f"),
    "warm": ("#c0392b", "#ff8a75"),
    "cool": ("#1f7a6b", "#5fc9b5"),
    "sand": ("#a3701a", "#e0b060"),
    "back": ("#fff", "#161b22"),
}


class Svg:
    """The elements of a picture, each with a colour by its name."""

    def __init__(self):
        self.parts = []

    def rect(self, x, y, width, height, colour, more=""):
        at = f'x="{x:.1f}" y="{y:.1f}" width="{width:.1f}" height="{height:.1f}"'
        self.parts.append(f'<rect {at} class="f-{colour}"{more}/>')

    def frame(self, x, y, width, height, colour):
        at = f'x="{x:.1f}" y="{y:.1f}" width="{width:.1f}" height="{height:.1f}"'
        self.parts.append(f'<rect {at} rx="3" fill="none" class="s-{colour}"/>')

    def path(self, points, colour, width=1.5, more=""):
        path = "L".join(f"{x:.1f},{y:.1f}" for x, y in points)
        style = f'class="s-{colour}" stroke-width="{width}"'
        self.parts.append(f'<path d="M{path}" fill="none" {style}{more}/>')

    def arrow(self, x, y, to, colour):
        self.path([(x, y), (x, to)], colour)
        tip = 4 if to > y else -4
        self.path([(x - 3, to - tip), (x, to), (x + 3, to - tip)], colour)

    def dot(self, x, y, colour):
        self.parts.append(f'<circle cx="{x:.1f}" cy="{y:.1f}" r="3" class="f-{colour}"/>')

    def text(self, x, y, words, colour="ink", anchor="start", size=12):
        how = f'class="f-{colour}" text-anchor="{anchor}" font-size="{size}"'
        self.parts.append(f'<text x="{x:.1f}" y="{y:.1f}" {how}>{escape(words)}</text>')

    def steps(self, points, end, colour):
        """A line that stands at a height from each place to the next."""
        turns = [it for i, it in enumerate(points) if i == 0 or it[1] != points[i - 1][1]]
        ends = [x for x, _ in turns[1:]] + [end]
        path = "".join(f"{'L' if i else 'M'}{x:.1f},{y:.1f}H{to:.1f}" for i, ((x, y), to) in enumerate(zip(turns, ends)))
        self.parts.append(f'<path d="{path}" fill="none" class="s-{colour}" stroke-width="2"/>')

    def svg(self, height):
        """Returns the picture, so high."""
        light, dark = (
            "".join(f".f-{name}{{fill:{it[i]}}}.s-{name}{{stroke:{it[i]}}}" for name, it in COLOURS.items())
            for i in (0, 1)
        )
        size = f'viewBox="0 0 {WIDTH} {height:.0f}" font-family="sans-serif"'
        style = f"<style>{light}@media(prefers-color-scheme:dark){{{dark}}}</style>"
        head = [f'<svg xmlns="http://www.w3.org/2000/svg" {size}>', style]
        ground = f'<rect width="{WIDTH}" height="{height:.0f}" class="f-back"/>'
        return "\n".join([*head, ground, *self.parts, "</svg>"])
