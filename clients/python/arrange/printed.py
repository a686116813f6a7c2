"""The printed answers, read line by line. What is not exactly as the program prints it is refused, never guessed."""
from __future__ import annotations

import re
from dataclasses import dataclass
from typing import Callable, Dict, Iterable, Iterator, List, Optional, Sequence, Tuple

from .answers import (
    Certificate, Flat, Freeness, ModularChain, MultiRestriction, Resolution, ResolutionMap, Triple, Value,
)
from .errors import AnswerCutOff, Limit, ProgramMismatch, Refusal
from .linear_forms import numbered
from .polynomials import Exponents, ExteriorElement, GradedVector, Polynomial, Ring, polynomial_in_t

NATURAL = r"(?:0|[1-9][0-9]*)"
HEAD = re.compile(r"([a-z]+) ([A-Za-z][A-Za-z0-9_]*):(?: (.+))?")
REFUSED = re.compile(rf"refused line ({NATURAL}): (.+)")
LIMITS = {
    "flats": ("flats",), "poincare": ("flats",), "characteristic": ("flats",), "triple": ("flats",),
    "circuits": ("circuits",), "nbc": ("nbc",), "aomoto": ("aomoto",),
    "gb": ("pairs", "degree"), "der": ("pairs", "degree"), "resolve": ("pairs", "degree"), "free": ("pairs", "degree"),
    "certify": ("pairs", "degree"), "hilbert": ("pairs", "degree"), "super": ("chain",),
    "ziegler": ("multiplicity", "pairs", "degree"),
}


@dataclass(frozen=True)
class Known:
    """What is known of the arrangement that an answer speaks of; answers that do not fit it are refused."""

    prime: Optional[int] = None
    variables: Optional[Tuple[str, ...]] = None
    count: Optional[int] = None


@dataclass(frozen=True)
class PrintedAnswer:
    """An answer as it was printed: its word, the arrangement's name, the value, and the text with its line feeds.

    Of a refusal the word and the name are empty.
    """

    word: str
    name: str
    value: Value
    text: str


def read_answers(
    lines: Iterable[str], prime: Optional[int] = None, variables: Optional[Sequence[str]] = None
) -> Iterator[PrintedAnswer]:
    """The answers in printed lines, each with its line feed. The last may be a refusal.

    Where the prime is given, numbers are held against it, and polynomials are written modulo it. The variables of
    vectors are called x1, x2, .. where no names are given.

    >>> for answer in read_answers(["flats A: 2\\n", "0: {}\\n", "1: {1}\\n", "refused line 9: no field\\n"]):
    ...     print(answer.word, answer.value)
    flats [Flat(rank=0, hyperplanes=()), Flat(rank=1, hyperplanes=(1,))]
     line 9: refused, no field
    """
    reader = Reader(iter(lines))
    known = Known(prime, None if variables is None else tuple(variables))
    while (answer := reader.answer(known)) is not None:
        yield answer
        if not answer.word:
            if (behind := reader.next_or_none()) is not None:
                raise unreadable(behind, "nothing, behind a refusal")
            return


def unreadable(line: str, wanted: str) -> ProgramMismatch:
    shown = line if len(line) < 200 else line[:200] + ".."
    why = "the program may be older or newer than this package"
    return ProgramMismatch(f"{shown!r} was printed where {wanted} is wanted; {why}")


class Reader:
    """Takes printed lines one at a time, and keeps those of the answer that is read."""

    def __init__(self, lines: Iterator[str]) -> None:
        self._lines = lines
        self._taken: List[str] = []

    def next_or_none(self) -> Optional[str]:
        """The next line without its line feed, or None at the end. A line without one is cut off."""
        line = next(self._lines, None)
        if line is None:
            return None
        self._taken.append(line)
        if not line.endswith("\n"):
            raise AnswerCutOff(f"the output ended within the line {line!r}")
        return line[:-1]

    def next(self, wanted: str) -> str:
        line = self.next_or_none()
        if line is None:
            raise AnswerCutOff(f"the output ended where {wanted} is wanted")
        return line

    def answer(self, known: Known) -> Optional[PrintedAnswer]:
        """The next answer, or None at the end."""
        self._taken = []
        line = self.next_or_none()
        if line is None:
            return None
        if refused := REFUSED.fullmatch(line):
            return PrintedAnswer("", "", Refusal(int(refused[1]), refused[2]), "".join(self._taken))
        head = HEAD.fullmatch(line)
        if head is None or head[1] not in READERS:
            raise unreadable(line, "an answer")
        word, name, rest = head[1], head[2], head[3] or ""
        if rest.startswith("limit "):
            if rest[6:] not in LIMITS.get(word, ()):
                raise unreadable(line, f"an answer of {word}")
            value: Value = Limit(rest[6:], f"{word} {name}")
        else:
            value = READERS[word](Body(self, word, rest, known))
        return PrintedAnswer(word, name, value, "".join(self._taken))


class Body:
    """What follows the head of an answer: the rest of its line, and the lines behind."""

    def __init__(self, reader: Reader, word: str, rest: str, known: Known) -> None:
        self.reader = reader
        self.word = word
        self.rest = rest
        self.prime = known.prime
        self.count = known.count
        self.ring = None if known.variables is None else Ring(known.prime, known.variables)

    def line(self, wanted: str) -> str:
        return self.reader.next(f"{wanted} of {self.word}")

    def behind(self, label: str) -> str:
        """What stands in the next line behind a label and a blank."""
        line = self.line(label)
        if not line.startswith(label + " "):
            raise unreadable(line, label)
        return line[len(label) + 1 :]

    def take_width(self, width: int) -> Ring:
        """The ring in so many variables; it is the one that is known, where one is."""
        if self.ring is None:
            self.ring = Ring(self.prime, numbered(width))
        if len(self.ring.variables) != width:
            raise unreadable(self.rest, f"an answer in {len(self.ring.variables)} variables")
        return self.ring

    # ---- numbers and sets

    def natural(self, text: str) -> int:
        if not re.fullmatch(NATURAL, text):
            raise unreadable(text, "a number")
        return int(text)

    def naturals(self, text: str) -> Tuple[int, ...]:
        return tuple(map(self.natural, text.split(" "))) if text else ()

    def integers(self, text: str) -> List[int]:
        parts = text.split(" ")
        for part in parts:
            if not re.fullmatch(r"0|-?[1-9][0-9]*", part):
                raise unreadable(text, "integers")
        return list(map(int, parts))

    def residue(self, text: str) -> int:
        number = self.natural(text)
        if self.prime is not None and number >= self.prime:
            raise unreadable(text, f"a residue modulo {self.prime}")
        return number

    def coordinates(self, text: str, more: int = 0) -> Tuple[int, ...]:
        """Residues, one for each variable and so many more."""
        numbers = tuple(map(self.residue, text.split(" ")))
        if self.ring is not None and len(numbers) != len(self.ring.variables) + more:
            raise unreadable(text, f"{len(self.ring.variables) + more} coordinates")
        return numbers

    def hyperplanes(self, text: str) -> Tuple[int, ...]:
        if not (text.startswith("{") and text.endswith("}")):
            raise unreadable(text, "a set")
        members = self.naturals(text[1:-1])
        if not self.is_set(members):
            raise unreadable(text, "a set of hyperplanes in rising order")
        return members

    def is_set(self, members: Tuple[int, ...]) -> bool:
        """Whether they are numbers of hyperplanes in rising order."""
        rising = all(a < b for a, b in zip((0, *members), members))
        return rising and (self.count is None or max(members, default=0) <= self.count)

    def set_lines(self) -> List[Tuple[int, ...]]:
        return [self.hyperplanes(self.line("a set")) for _ in range(self.natural(self.rest))]

    # ---- polynomials and vectors

    def polynomial(self, text: str, ring: Ring) -> Polynomial:
        """A sum of terms from the greatest, each a coefficient and the variables with their exponents."""
        terms: Dict[Exponents, int] = {}
        if text != "0":
            for term in text.split(" + "):
                exponents, coefficient = self.term(term, len(ring.variables))
                terms[exponents] = coefficient
            polynomial = Polynomial(ring, terms)
            if len(terms) < text.count(" + ") + 1 or polynomial.in_order() != list(terms):
                raise unreadable(text, "a polynomial in order")
        return Polynomial(ring, terms)

    def term(self, text: str, width: int) -> Tuple[Exponents, int]:
        coefficient, *powers = text.split("*")
        exponents = [0] * width
        last = 0
        for power in powers:
            part = re.fullmatch(r"x([1-9][0-9]?)(?:\^([1-9][0-9]*))?", power)
            if part is None or not last < int(part[1]) <= width or part[2] == "1":
                raise unreadable(text, f"a term in {width} variables")
            last = int(part[1])
            exponents[last - 1] = int(part[2] or 1)
        return tuple(exponents), self.nonzero(coefficient)

    def nonzero(self, text: str) -> int:
        number = self.residue(text)
        if number == 0:
            raise unreadable(text, "a coefficient other than 0")
        return number

    def vector(self, text: str) -> GradedVector:
        """A degree, and a vector whose entries are as many as the variables, where these are not known yet."""
        form = re.fullmatch(rf"({NATURAL}): \((.*)\)", text)
        if form is None:
            raise unreadable(text, "a graded vector")
        entries = form[2].split(", ")
        ring = self.ring or self.take_width(len(entries))
        return GradedVector(int(form[1]), tuple(self.polynomial(it, ring) for it in entries))

    def entries(self, text: str, size: int) -> Tuple[Polynomial, ...]:
        """So many polynomials in parentheses."""
        parts = text[1:-1].split(", ")
        if not (text.startswith("(") and text.endswith(")")) or len(parts) != size:
            raise unreadable(text, f"a vector with {size} entries")
        ring = self.ring or self.take_width(size)
        return tuple(self.polynomial(it, ring) for it in parts)

    def derivation(self, text: str) -> GradedVector:
        """A vector with an entry for each variable, and the degree of its entries."""
        vector = self.vector(text)
        if self.ring is None or len(vector.entries) != len(self.ring.variables):
            raise unreadable(text, "a vector with an entry for each variable")
        if vector.degree != max(it.degree() for it in vector.entries):
            raise unreadable(text, "a vector with its degree")
        return vector

    def generator(self, text: str) -> int:
        if not text.startswith("e"):
            raise unreadable(text, "a generator")
        return self.natural(text[1:])

    def exterior(self, text: str) -> ExteriorElement:
        terms: Dict[Tuple[int, ...], int] = {}
        if text != "0":
            for term in text.split(" + "):
                coefficient, *generators = term.split("*")
                members = tuple(map(self.generator, generators))
                if not self.is_set(members) or members in terms:
                    raise unreadable(term, "a term of an element")
                terms[members] = self.nonzero(coefficient)
        return ExteriorElement(self.prime, terms)


# ---- the answers


def _hyperplanes(body: Body) -> List[Tuple[int, ...]]:
    counts = re.fullmatch(rf"({NATURAL}) in ([1-9][0-9]?)( affine)?", body.rest)
    if counts is None or body.count not in (None, int(counts[1])):
        raise unreadable(body.rest, "the numbers of hyperplanes and variables")
    body.take_width(int(counts[2]))
    more = 1 if counts[3] else 0  # a constant
    return [body.coordinates(body.line("a form"), more) for _ in range(int(counts[1]))]


def _flats(body: Body) -> List[Flat]:
    flats = []
    for _ in range(body.natural(body.rest)):
        line = body.line("a flat")
        rank, colon, members = line.partition(": ")
        if not colon:
            raise unreadable(line, "a flat")
        flats.append(Flat(body.natural(rank), body.hyperplanes(members)))
    return flats


def _triple(body: Body) -> Triple:
    if body.rest:
        raise unreadable(body.rest, "nothing behind the name")
    labels = ("whole:", "deleted:", "restricted:")
    return Triple(*(polynomial_in_t(body.integers(body.behind(label))) for label in labels))


def _vectors(body: Body) -> List[GradedVector]:
    return [body.derivation(body.line("a vector")) for _ in range(body.natural(body.rest))]


def _resolution(body: Body) -> Resolution:
    maps: List[ResolutionMap] = []
    for k in range(body.natural(body.rest)):
        betti = body.naturals(body.behind(f"betti {k}:"))
        rows = [body.line("a row") for _ in range(sum(betti))]
        vectors = [body.derivation(it) if k == 0 else body.vector(it) for it in rows]
        width = len(maps[-1].rows) if maps else None
        for row, vector in zip(rows, vectors):
            if width is not None and len(vector.entries) != width:
                raise unreadable(row, f"a row with {width} entries")
        if [sum(it.degree == d for it in vectors) for d in range(len(betti))] != list(betti):
            raise unreadable(" ".join(map(str, betti)), f"how many rows of map {k} have each degree")
        maps.append(ResolutionMap(betti, tuple(vectors)))
    if not maps:
        raise unreadable(body.rest, "a number of maps")
    return Resolution(tuple(maps))


def _freeness(body: Body) -> Freeness:
    if body.rest.startswith("no "):
        return Freeness(False, body.natural(body.rest[3:]))
    if body.rest != "yes":
        raise unreadable(body.rest, "yes or no")
    basis = [body.derivation(body.line("a vector"))]
    size = len(basis[0].entries)
    basis += [body.derivation(body.line("a vector")) for _ in range(size - 1)]
    point = body.coordinates(body.behind("point:"))
    if (label := body.line("inverse:")) != "inverse:":
        raise unreadable(label, "inverse:")
    inverse = tuple(body.coordinates(body.line("a row of the inverse")) for _ in range(size))
    return Freeness(True, size, tuple(basis), point, inverse)


def _certificate(body: Body) -> Certificate:
    if body.rest.startswith("none "):
        return Certificate(False, body.natural(body.rest[5:]))
    if body.rest != "yes":
        raise unreadable(body.rest, "yes or none")
    basis = [body.derivation(body.line("a vector"))]
    size = len(basis[0].entries)
    basis += [body.derivation(body.line("a vector")) for _ in range(size - 1)]
    if (label := body.line("cofactor:")) != "cofactor:":
        raise unreadable(label, "cofactor:")
    return Certificate(True, size, tuple(basis), tuple(body.entries(body.line("a vector"), size) for _ in range(size)))


def _modular_chain(body: Body) -> ModularChain:
    if body.rest == "no":
        return ModularChain(False)
    if body.rest != "yes":
        raise unreadable(body.rest, "yes or no")
    flats: List[Flat] = []
    while not (line := body.line("a flat or exponents:")).startswith("exponents:"):
        rank, colon, members = line.partition(": ")
        if not colon or body.natural(rank) != len(flats):
            raise unreadable(line, f"a flat of rank {len(flats)}")
        flats.append(Flat(len(flats), body.hyperplanes(members)))
    sizes = [len(it.hyperplanes) for it in flats]
    exponents = tuple(high - low for low, high in zip(sizes, sizes[1:]))
    if not flats or line != " ".join(["exponents:", *map(str, exponents)]):
        raise unreadable(line, "the exponents of the flats")
    return ModularChain(True, tuple(flats), exponents)


def _multirestriction(body: Body) -> MultiRestriction:
    counts = re.fullmatch(rf"({NATURAL}) in ([1-9][0-9]?)", body.rest)
    if counts is None:
        raise unreadable(body.rest, "the numbers of hyperplanes and variables")
    body.ring, body.count = Ring(body.prime, numbered(int(counts[2]))), int(counts[1])
    forms, multiplicities = [], []
    for _ in range(body.count):
        form, _, multiplicity = body.line("a form").partition(": ")
        forms.append(body.coordinates(form))
        multiplicities.append(body.natural(multiplicity))
    body.rest = body.behind("free:")
    return MultiRestriction(tuple(forms), tuple(multiplicities), _freeness(body))


READERS: Dict[str, Callable[[Body], Value]] = {
    "hyperplanes": _hyperplanes,
    "point": lambda body: body.coordinates(body.rest),
    "rank": lambda body: body.natural(body.rest),
    "flats": _flats,
    "poincare": lambda body: polynomial_in_t(body.integers(body.rest)),
    "characteristic": lambda body: polynomial_in_t(body.integers(body.rest)),
    "triple": _triple,
    "circuits": Body.set_lines,
    "nbc": Body.set_lines,
    "normal": lambda body: body.exterior(body.rest),
    "aomoto": lambda body: list(body.naturals(body.rest)),
    "gb": _vectors,
    "der": _vectors,
    "resolve": _resolution,
    "free": _freeness,
    "certify": _certificate,
    "hilbert": lambda body: list(body.naturals(body.rest)),
    "super": _modular_chain,
    "ziegler": _multirestriction,
}
