"""Builds the program of a crate, `tscache` where none is named, and copies it to OUT."""
import os

from parts.builds import Builds, copy
from parts.frame import temporary


def arguments(parser):
    parser.add_argument("--unproved", action="store_true", help="build without proofs, in a minute")
    parser.add_argument("out", metavar="OUT", help="the file")
    parser.add_argument("crate", nargs="?", default="tscache")


def main(given):
    given.built = None
    with temporary() as work:
        copy(Builds(given, work).program(given.crate), os.path.abspath(given.out))
