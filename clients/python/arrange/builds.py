"""How an arrangement is built: what stands behind `let A =` in a script, and what is known without the program."""
from __future__ import annotations

from dataclasses import dataclass, replace
from fractions import Fraction
from typing import Callable, Dict, FrozenSet, List, Optional, Sequence, Tuple, Union

from .errors import BadInput
from .fields import Field
from .linear_forms import MOST_VARIABLES

MOST_FORMS = 64
Row = Tuple[Fraction, ...]


@dataclass(frozen=True)
class Forms:
    """Linear forms by their coefficients; or affine ones by these and the constant, or the cone over them.

    The numbers are integers and fractions; where `characteristic` is a prime they are residues modulo it.
    """

    dimension: int
    rows: Tuple[Row, ...]
    is_cone: bool = False
    characteristic: int = 0
    is_affine: bool = False

    def count(self) -> Optional[int]:
        return len(self.rows) + self.is_cone

    def line(self, field: Field, name_of: Callable[[Build], str]) -> str:
        rows = ", ".join(" ".join(str(field.residue(it)) for it in row) for row in self.rows)
        if self.is_cone:
            return f"cone {self.dimension - 1} [{rows}]"
        return f"{'affine' if self.is_affine else 'forms'} {self.dimension} [{rows}]"

    def check(self, field: Field) -> None:
        """Raises BadInput with the place of the first form that is zero, or else is a multiple of one before it."""
        over = f"over the field with {field.prime} elements"
        if self.characteristic not in (0, field.prime):
            raise BadInput("forms", f"they are of characteristic {self.characteristic}, and not {over}")
        residues = self.residues(field)
        for i, row in enumerate(residues, 1):
            if not any(row[: self.dimension]):
                raise BadInput(f"form {i}", f"it is zero {over}")
        first: Dict[Tuple[int, ...], int] = {}
        for i, row in enumerate(residues, 1):
            lead = next(it for it in row if it)
            monic = tuple(field.residue(Fraction(it, lead)) for it in row)
            if first.setdefault(monic, i) != i:
                whose = "the form of the cone's last variable" if self.is_cone and i == len(residues) else "it"
                raise BadInput(f"form {i}", f"{whose} is a multiple of form {first[monic]} {over}")

    def residues(self, field: Field) -> List[Tuple[int, ...]]:
        """The coefficients of all forms, of a cone with that of its last variable."""
        rows = []
        for i, row in enumerate(self.rows, 1):
            rows.append(tuple(field.residue(it, f"form {i}, coefficient {j}") for j, it in enumerate(row, 1)))
        return rows + [(0,) * (self.dimension - 1) + (1,)] * self.is_cone


@dataclass(frozen=True)
class Family:
    """The arrangement of a root system, or the coordinate hyperplanes: typeA, typeB, typeD or boolean."""

    word: str
    rank: int

    @property
    def dimension(self) -> int:
        return self.rank + (self.word == "typeA")

    def count(self) -> Optional[int]:
        pairs = self.dimension * (self.dimension - 1) // 2
        return {"typeA": pairs, "typeB": 2 * pairs + self.rank, "typeD": 2 * pairs, "boolean": self.rank}[self.word]

    def line(self, field: Field, name_of: Callable[[Build], str]) -> str:
        return f"{self.word} {self.rank}"

    def check(self, field: Field) -> None:
        pass


@dataclass(frozen=True)
class Graphic:
    """The arrangement of a graph."""

    dimension: int
    edges: Tuple[Tuple[int, int], ...]

    def count(self) -> Optional[int]:
        return len(self.edges)

    def line(self, field: Field, name_of: Callable[[Build], str]) -> str:
        return f"graphic {self.dimension} [{' '.join(f'{a}-{b}' for a, b in self.edges)}]"

    def check(self, field: Field) -> None:
        """Raises BadInput with the first edge that is a loop, has an end that is no vertex, or comes again."""
        first: Dict[FrozenSet[int], int] = {}
        for k, (a, b) in enumerate(self.edges, 1):
            for end in (a, b):
                if not 1 <= end <= self.dimension:
                    raise BadInput(f"edge {k}", f"{a}-{b} has the end {end}, and the vertices are 1 to {self.dimension}")
            if a == b:
                raise BadInput(f"edge {k}", f"{a}-{b} is a loop")
            if first.setdefault(frozenset((a, b)), k) != k:
                raise BadInput(f"edge {k}", f"{a}-{b} joins what edge {first[frozenset((a, b))]} joins")


@dataclass(frozen=True)
class Deleted:
    """An arrangement without one of its hyperplanes."""

    whole: Build
    index: int

    @property
    def dimension(self) -> int:
        return self.whole.dimension

    def count(self) -> Optional[int]:
        whole = self.whole.count()
        return None if whole is None else whole - 1

    def line(self, field: Field, name_of: Callable[[Build], str]) -> str:
        return f"delete {name_of(self.whole)} {self.index}"

    def check(self, field: Field) -> None:
        self.whole.check(field)
        check_index(self.index, self.whole.count())


@dataclass(frozen=True)
class Restricted:
    """An arrangement cut with one of its hyperplanes. How many hyperplanes that has is left to the program."""

    whole: Build
    index: int

    @property
    def dimension(self) -> int:
        return self.whole.dimension - 1

    def count(self) -> Optional[int]:
        return None

    def line(self, field: Field, name_of: Callable[[Build], str]) -> str:
        return f"restrict {name_of(self.whole)} {self.index}"

    def check(self, field: Field) -> None:
        self.whole.check(field)
        check_index(self.index, self.whole.count())


Build = Union[Forms, Family, Graphic, Deleted, Restricted]


def is_affine(build: Build) -> bool:
    """Whether it is made of affine hyperplanes, with constants."""
    if isinstance(build, (Deleted, Restricted)):
        return is_affine(build.whole)
    return isinstance(build, Forms) and build.is_affine


def keep(build: Build, members: Sequence[int], count: int) -> Build:
    """The arrangement of some of the hyperplanes, in their order; of so many there are.

    >>> keep(Graphic(3, ((1, 2), (2, 3), (1, 3))), [1, 3], 3)
    Graphic(dimension=3, edges=((1, 2), (1, 3)))
    """
    for index in members:
        check_index(index, count)
    kept = sorted(set(members))
    if isinstance(build, Forms) and not build.is_cone:
        return replace(build, rows=tuple(build.rows[it - 1] for it in kept))
    if isinstance(build, Graphic):
        return replace(build, edges=tuple(build.edges[it - 1] for it in kept))
    for index in sorted(set(range(1, count + 1)) - set(kept), reverse=True):
        build = Deleted(build, index)
    return build


def check_index(index: int, count: Optional[int]) -> None:
    """Raises BadInput where there is no hyperplane of that number, as far as it is known how many there are."""
    if index < 1 or count is not None and index > count:
        known = "there is none" if not count else f"the hyperplanes are 1 to {count}"
        raise BadInput(f"hyperplane {index}", "hyperplanes are counted from 1" if index < 1 else known)


def check_build(build: Build, field: Field) -> None:
    """Raises BadInput where the program would refuse the arrangement, as far as that is seen without it."""
    if not 1 <= build.dimension <= MOST_VARIABLES:
        raise BadInput("dimension", f"{build.dimension} is not from 1 to {MOST_VARIABLES}")
    build.check(field)
    count = build.count()
    if count is not None and count > MOST_FORMS:
        raise BadInput("arrangement", f"{count} hyperplanes are more than {MOST_FORMS}")
    if count is not None and count >= field.prime:
        raise BadInput("arrangement", f"{count} hyperplanes are not fewer than the {field.prime} elements of the field")
