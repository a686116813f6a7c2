"""Questions, and the lines of a script that ask them."""
from __future__ import annotations

import re
from dataclasses import dataclass
from typing import TYPE_CHECKING, Any, Dict, Iterable, List, Mapping, Optional, Sequence, Tuple, Union

from .builds import Build, check_index
from .errors import BadInput
from .fields import Field, whole_number
from .linear_forms import column_at

if TYPE_CHECKING:
    from .arrangements import Arrangement

WORDS = (
    "hyperplanes", "point", "rank", "flats", "poincare", "characteristic", "triple", "circuits", "nbc", "normal",
    "aomoto", "gb", "der", "resolve", "free", "certify", "hilbert", "super", "ziegler",
)
MOST_DEGREE = 240
MOST_BYTES = 1_048_576
MOST_MULTIPLICITY = 20
Multiplicities = Union[None, int, Sequence[int]]
Element = Union[str, Mapping[Tuple[int, ...], Any]]


@dataclass(frozen=True)
class Limits:
    """The limits of the questions about derivations: on critical pairs, and on degrees of least common multiples."""

    pairs: int = 100_000
    degree: int = 240

    def __post_init__(self) -> None:
        for word, most in (("pairs", 1_000_000), ("degree", 240)):
            number = whole_number(getattr(self, word), f"limit {word}")
            object.__setattr__(self, word, number)
            if not 0 <= number <= most:
                raise BadInput(f"limit {word}", f"{number} is not from 0 to {most}")


@dataclass(frozen=True)
class Question:
    """A question about an arrangement: its word, what stands behind the name, and its limits where it has some.

    >>> from arrange import Arrangement
    >>> print(Question.der(Arrangement.boolean(2), [2, 1]))
    der A [2 1]
    """

    word: str
    arrangement: Arrangement
    argument: str = ""
    limits: Optional[Limits] = None

    def __str__(self) -> str:
        return self.line("A")

    def line(self, name: str) -> str:
        return f"{self.word} {name} {self.argument}".rstrip()

    # ---- the questions

    @classmethod
    def hyperplanes(cls, arrangement: Arrangement) -> Question:
        return cls("hyperplanes", arrangement)

    @classmethod
    def point(cls, arrangement: Arrangement) -> Question:
        return cls("point", arrangement)

    @classmethod
    def rank(cls, arrangement: Arrangement) -> Question:
        return cls("rank", arrangement)

    @classmethod
    def flats(cls, arrangement: Arrangement) -> Question:
        return cls("flats", arrangement)

    @classmethod
    def poincare(cls, arrangement: Arrangement) -> Question:
        return cls("poincare", arrangement)

    @classmethod
    def characteristic(cls, arrangement: Arrangement) -> Question:
        return cls("characteristic", arrangement)

    @classmethod
    def triple(cls, arrangement: Arrangement, index: int) -> Question:
        number = whole_number(index, "hyperplane")
        if arrangement.dimension == 1:
            raise BadInput("dimension", "an arrangement in dimension 1 has no restriction")
        check_index(number, arrangement.build.count())
        return cls("triple", arrangement, str(number))

    @classmethod
    def circuits(cls, arrangement: Arrangement) -> Question:
        return cls("circuits", arrangement)

    @classmethod
    def nbc(cls, arrangement: Arrangement) -> Question:
        return cls("nbc", arrangement)

    @classmethod
    def normal(cls, arrangement: Arrangement, element: Element) -> Question:
        if isinstance(element, str):
            return cls("normal", arrangement, _checked_element(element, arrangement))
        return cls("normal", arrangement, _written_element(element, arrangement))

    @classmethod
    def aomoto(cls, arrangement: Arrangement, weights: Sequence[Any]) -> Question:
        field = arrangement.field
        if isinstance(weights, str):
            raise BadInput("weights", f"{weights!r} is a text, and a list of numbers is wanted")
        residues = [field.residue(it, f"weight {i}") for i, it in enumerate(weights, 1)]
        _check_count(len(residues), "weights", arrangement)
        return cls("aomoto", arrangement, _list_text(residues))

    @classmethod
    def gb(cls, arrangement: Arrangement, multiplicities: Multiplicities = None, limits: Limits = Limits()) -> Question:
        return cls("gb", arrangement, _multiplicities(arrangement, multiplicities), limits)

    @classmethod
    def der(cls, arrangement: Arrangement, multiplicities: Multiplicities = None, limits: Limits = Limits()) -> Question:
        return cls("der", arrangement, _multiplicities(arrangement, multiplicities), limits)

    @classmethod
    def resolve(cls, arrangement: Arrangement, multiplicities: Multiplicities = None, limits: Limits = Limits()) -> Question:
        return cls("resolve", arrangement, _multiplicities(arrangement, multiplicities), limits)

    @classmethod
    def free(cls, arrangement: Arrangement, multiplicities: Multiplicities = None, limits: Limits = Limits()) -> Question:
        return cls("free", arrangement, _multiplicities(arrangement, multiplicities), limits)

    @classmethod
    def certify(cls, arrangement: Arrangement, multiplicities: Multiplicities = None, limits: Limits = Limits()) -> Question:
        return cls("certify", arrangement, _multiplicities(arrangement, multiplicities), limits)

    @classmethod
    def hilbert(
        cls, arrangement: Arrangement, degree: int, multiplicities: Multiplicities = None, limits: Limits = Limits()
    ) -> Question:
        number = whole_number(degree, "degree")
        if not 0 <= number <= MOST_DEGREE:
            raise BadInput("degree", f"{number} is not from 0 to {MOST_DEGREE}")
        return cls("hilbert", arrangement, f"{number} {_multiplicities(arrangement, multiplicities)}".rstrip(), limits)

    @classmethod
    def super(cls, arrangement: Arrangement) -> Question:
        return cls("super", arrangement)

    @classmethod
    def ziegler(cls, arrangement: Arrangement, index: int, limits: Limits = Limits()) -> Question:
        number = whole_number(index, "hyperplane")
        if arrangement.dimension == 1:
            raise BadInput("dimension", "an arrangement in dimension 1 has no restriction")
        check_index(number, arrangement.build.count())
        return cls("ziegler", arrangement, str(number), limits)


# ---- what stands behind the name


def _list_text(numbers: Sequence[int]) -> str:
    return f"[{' '.join(map(str, numbers))}]"


def _check_count(count: int, what: str, arrangement: Arrangement) -> None:
    wanted = arrangement.build.count()
    if wanted is not None and count != wanted:
        raise BadInput(what, f"they are {count}, and the hyperplanes {wanted}")


def _multiplicities(arrangement: Arrangement, multiplicities: Multiplicities) -> str:
    if multiplicities is None:
        return ""
    if isinstance(multiplicities, str):
        raise BadInput("multiplicities", f"{multiplicities!r} is a text, and a list of numbers is wanted")
    if not isinstance(multiplicities, Iterable):
        multiplicities = [multiplicities] * len(arrangement)
    numbers = [whole_number(it, f"multiplicity {i}") for i, it in enumerate(multiplicities, 1)]
    for i, number in enumerate(numbers, 1):
        if not 0 <= number <= MOST_MULTIPLICITY:
            raise BadInput(f"multiplicity {i}", f"{number} is not from 0 to {MOST_MULTIPLICITY}")
    _check_count(len(numbers), "multiplicities", arrangement)
    return _list_text(numbers)


FACTOR = re.compile(r"\s*(?:e(?P<generator>[0-9]{1,10})|(?P<number>[0-9]+))(?![A-Za-z0-9_])\s*")
SIGN = re.compile(r"\s*(?P<sign>[-+*])")


def _checked_element(text: str, arrangement: Arrangement) -> str:
    """The text of an element by the grammar of `normal`, with its numbers as residues; or BadInput with the column."""
    written, at = [], 0
    if (leading := SIGN.match(text)) and leading["sign"] == "-":
        written.append("-")
        at = leading.end()
    while True:
        factor = FACTOR.match(text, at)
        if factor is None:
            place = f"element, column {column_at(text, at)}"
            raise BadInput(place, f"{text!r} has no number and no generator such as e1 there")
        written.append(_factor(factor, arrangement))
        at = factor.end()
        if at == len(text):
            return " ".join(written)
        sign = SIGN.match(text, at)
        if sign is None:
            raise BadInput(f"element, column {column_at(text, at)}", f"{text!r} has no +, - or * there")
        written.append(sign["sign"])
        at = sign.end()


def _factor(factor: re.Match[str], arrangement: Arrangement) -> str:
    if factor["number"]:
        return str(int(factor["number"]) % arrangement.field.prime)
    number = int(factor["generator"])
    column = factor.start("generator")
    count = arrangement.build.count()
    if number < 1 or count is not None and number > count:
        raise BadInput(f"element, column {column}", f"there is no hyperplane {number}")
    return f"e{number}"


def _written_element(terms: Mapping[Tuple[int, ...], Any], arrangement: Arrangement) -> str:
    """The text of an element that is given as residues by tuples of hyperplanes, multiplied in the order given."""
    products = []
    for generators, coefficient in terms.items():
        place = f"term {tuple(generators)}"
        numbers = [whole_number(it, place) for it in generators]
        for number in numbers:
            check_index(number, arrangement.build.count())
        products.append("*".join([str(arrangement.field.residue(coefficient, place)), *(f"e{k}" for k in numbers)]))
    return " + ".join(products) or "0"


# ---- scripts


class Script:
    """A script that is made question by question, all over one field."""

    def __init__(self, field: Field) -> None:
        self.lines: List[str] = [str(field)]
        self.asked: List[Tuple[Question, str, int]] = []  # with the name and the number of the line
        self._field = field
        self._bytes = len(self.lines[0]) + 1
        self._names: Dict[Build, str] = {}
        self._limits = Limits()

    def text(self) -> str:
        return "".join(line + "\n" for line in self.lines)

    def take(self, question: Question) -> bool:
        """Adds a question, or answers False where the script would have more bytes than the program takes."""
        lines: List[str] = []
        names: Dict[Build, str] = {}
        name = self._name_of(question.arrangement.build, names, lines)
        limits = question.limits or self._limits
        for word in ("pairs", "degree"):
            if getattr(limits, word) != getattr(self._limits, word):
                lines.append(f"limit {word} {getattr(limits, word)}")
        lines.append(question.line(name))
        added = sum(len(line) + 1 for line in lines)
        if self._bytes + added > MOST_BYTES:
            if not self.asked:
                raise BadInput("question", f"its script would have more than {MOST_BYTES} bytes")
            return False
        self._bytes += added
        self._names.update(names)
        self._limits = limits
        self.lines.extend(lines)
        self.asked.append((question, name, len(self.lines)))
        return True

    def _name_of(self, build: Build, names: Dict[Build, str], lines: List[str]) -> str:
        """The name of an arrangement, with the lines that give it one where it has none yet."""
        known = self._names.get(build) or names.get(build)
        if known is None:
            line = build.line(self._field, lambda whole: self._name_of(whole, names, lines))
            known = names[build] = f"A{len(self._names) + len(names) + 1}"
            lines.append(f"let {known} = {line}")
        return known
