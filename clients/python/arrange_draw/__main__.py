"""arrange-draw: a picture of an arrangement as SVG."""
from __future__ import annotations

import argparse
import pathlib
import re
import sys
from typing import List, Optional, Sequence

from arrange import ArrangeError, BadInput, Flat, Lattice, Program

from .asking import Answers, asked, printed
from .betti import betti_picture
from .kinds import kinds_picture
from .lattice import Look, lattice_picture
from .plane import differences, lines_picture
from .real_lines import given_lines, real_lines
from .real_numbers import real_rows
from .svg import Picture

QUESTIONS = {"lines": ("hyperplanes", "flats"), "lattice": ("flats",), "kinds": ("flats",), "betti": ("resolve",)}
EPILOG = """\
examples:
  arrange-draw lines examples/gallery/braid.arr -o braid.svg
  arrange-draw lattice examples/gallery/braid.arr > lattice.svg
  arrange-draw betti examples/gallery/prism.arr -o betti.svg
  ./arrange answers.arr | arrange-draw lines - A --answers --field 31 -o A.svg

Over a prime field lines have no real position. They are drawn by integers with the same residues. Where a point of the
arrangement comes apart in that picture, its pieces are marked, and the picture and standard error say which it is."""


def parser() -> argparse.ArgumentParser:
    words = argparse.ArgumentParser(
        "arrange-draw", description="Draws an arrangement of a script as SVG, from the answers that the program prints.",
        epilog=EPILOG, formatter_class=argparse.RawDescriptionHelpFormatter,
    )
    add = words.add_argument
    picture = "lines in the projective plane, the lattice of flats, the kinds of flats of a wide lattice, a Betti table"
    add("picture", choices=list(QUESTIONS), help=picture)
    add("script", help="a script, or - for standard input; its own questions are left out")
    add("name", nargs="?", help="the arrangement; may be left out where the script names one")
    add("-o", "--output", metavar="FILE", help="the SVG file; standard output where it is left out")
    add("--answers", action="store_true", help="the file holds printed answers, and the program is not asked")
    add("--field", type=int, metavar="P", help="with --answers: the number of elements of the field")
    add("--boundary", type=int, metavar="I", help="of lines: draw hyperplane I as the boundary of the disc")
    add("--real", metavar="'A B C, ..'", help="of lines: the real forms to draw, such as '1 0 0, 1 phi phi-1, ..'")
    add("--ranks", metavar="A..B", help="of lattice: the flats of these ranks alone")
    add("--turned", action="store_true", help="of lattice: labels that are read from below, for wide ranks")
    add("--chain", action="store_true", help="of lattice: mark a maximal chain of modular flats, where there is one")
    add("--multiplicities", default="", metavar="'M ..'", help="of betti: the multiplicities of the hyperplanes")
    add("--title", help="what the picture calls the arrangement, instead of its name")
    add("--program", metavar="PATH", help="the program, instead of the one that ARRANGE names")
    add("--seconds", type=float, metavar="S", help="end the program after S seconds")
    return words


def answers_for(options: argparse.Namespace) -> Answers:
    file = options.script
    text = sys.stdin.read() if file == "-" else pathlib.Path(file).read_text(encoding="utf-8", errors="replace")
    if options.answers:
        return printed(text, options.name, options.field)
    behind = f"[{options.multiplicities}]" if options.multiplicities else ""
    program = Program(options.program, options.seconds)
    return asked(text, options.name, QUESTIONS[options.picture], program, behind)


def drawn(options: argparse.Namespace) -> Picture:
    """The picture that the words of the command line ask for. What comes apart in it is said on standard error."""
    answers = answers_for(options)
    name = options.title or answers.name
    if options.picture == "betti":
        return betti_picture(answers.resolution(), name, options.multiplicities)
    flats = answers.flats()
    if options.picture == "lattice":
        return lattice_picture(flats, name, look_of(options, flats))
    if options.picture == "kinds":
        return kinds_picture(flats, name)
    if answers.prime is None:
        raise BadInput("--field", "the number of elements of the field is needed to draw lines")
    rows = answers.hyperplanes()
    real = None if options.real is None else real_rows(options.real)
    planes = [it.hyperplanes for it in flats if it.rank == 2]
    for said in differences(real_lines(rows, answers.prime, planes) if real is None else given_lines(real, planes)):
        print(f"arrange-draw: {said}", file=sys.stderr)
    return lines_picture(rows, flats, answers.prime, name, options.boundary, real)


def look_of(options: argparse.Namespace, flats: Sequence[Flat]) -> Look:
    """How the lattice is to be drawn. That there is no chain to be marked is said on standard error."""
    ranks = None
    if options.ranks is not None:
        ends = re.fullmatch(r"([0-9]+)\.\.([0-9]+)", options.ranks)
        if ends is None:
            raise BadInput("--ranks", f"{options.ranks!r} is no range such as 1..2")
        ranks = (int(ends[1]), int(ends[2]))
    chain = Lattice(flats).modular_chain() if options.chain else []
    if chain is None:
        print("arrange-draw: there is no maximal chain of modular flats: it is not supersolvable", file=sys.stderr)
    return Look(ranks, options.turned, tuple(chain or ()))


def main(words: Optional[List[str]] = None) -> int:
    options = parser().parse_args(words)
    try:
        text = drawn(options).text()
        if options.output is None:
            sys.stdout.write(text)
        else:
            pathlib.Path(options.output).write_text(text, encoding="utf-8")
    except (ArrangeError, OSError) as fault:
        print(f"arrange-draw: {fault}", file=sys.stderr)
        return 1
    return 0


if __name__ == "__main__":
    sys.exit(main())
