"""Draws the pictures of the documents anew, from what `docs/pictures/` and `examples/` have."""
from parts.builds import Builds, words_of
from parts.draw import copies, figures, forms, page, pages
from parts.frame import ROOT, temporary, text_of, write

DRAWN = {
    "docs/page_lazy.svg": (page.draw_page, "docs/pictures/page.json", "docs/pictures/page.txt"),
    "docs/two_copies.svg": (copies.draw_copies, "docs/pictures/copies.json", "docs/pictures/copies.log"),
    "docs/figures.svg": (figures.draw_figures, "docs/pictures/figures.txt"),
    "docs/forms.svg": (forms.draw_forms, "docs/pictures/forms.txt"),
}
# What asks the program.
REPLAYED = {"docs/pages_rotate.svg": "examples/pages_rotate.json"}


def drawn(program=None):
    """Returns each picture by its file. Those of a replay need the program."""
    found = {path: draw(*map(text_of, files)) for path, (draw, *files) in DRAWN.items()}
    for path, trace in REPLAYED.items() if program else ():
        found[path] = pages.draw_pages(program, text_of(trace))
    return {path: f"{text}\n" for path, text in found.items()}


def arguments(parser):
    words_of(parser)


def main(given):
    with temporary() as work:
        for path, text in drawn(Builds(given, work).program()).items():
            write(f"{ROOT}/{path}", text)
            print(path)
