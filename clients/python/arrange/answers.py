"""The answers that are more than a number, a list or a polynomial."""
from __future__ import annotations

from dataclasses import dataclass
from operator import mul
from typing import Dict, List, Optional, Tuple, Union

from .errors import Limit, Refusal
from .polynomials import ExteriorElement, GradedVector, Polynomial, matrix_text
from .shown import picture, table


@dataclass(frozen=True)
class Flat:
    """A flat: its rank, and the hyperplanes that contain it, in rising order."""

    rank: int
    hyperplanes: Tuple[int, ...]

    def __str__(self) -> str:
        return f"{self.rank}: {{{' '.join(map(str, self.hyperplanes))}}}"

    def _repr_latex_(self) -> str:
        return rf"$\{{{', '.join(map(str, self.hyperplanes))}\}}$"


@dataclass(frozen=True)
class Triple:
    """The Poincaré polynomials of an arrangement, of its deletion and of its restriction."""

    whole: Polynomial
    deleted: Polynomial
    restricted: Polynomial

    def _repr_latex_(self) -> str:
        return rf"${self.whole.latex()} = ({self.deleted.latex()}) + t\,({self.restricted.latex()})$"


@dataclass(frozen=True)
class ResolutionMap:
    """A map of a resolution: how many rows it has of each degree, from 0 up to the highest, and its rows."""

    betti: Tuple[int, ...]
    rows: Tuple[GradedVector, ...]


@dataclass(frozen=True, repr=False)
class Resolution:
    """A minimal free resolution of the module of logarithmic derivations.

    The rows of the first map are minimal generators. A row of a later map is a relation between the rows of the map
    before it; its degree is that of the relation.
    """

    maps: Tuple[ResolutionMap, ...]

    def __repr__(self) -> str:
        return f"<Resolution of projective dimension {self.projective_dimension()} with Betti numbers {self.betti()}>"

    def __str__(self) -> str:
        return self.betti_table()

    def __len__(self) -> int:
        """How many maps there are."""
        return len(self.maps)

    def betti(self) -> Dict[Tuple[int, int], int]:
        """The Betti numbers that are not zero, by the number of the map, from 0, and the degree."""
        numbers = (((k, degree), count) for k, it in enumerate(self.maps) for degree, count in enumerate(it.betti))
        return {place: count for place, count in numbers if count}

    def projective_dimension(self) -> int:
        return len(self.maps) - 1

    def regularity(self) -> int:
        """The greatest difference between a degree and the number of its map."""
        return max(degree - k for k, degree in self.betti())

    def betti_table(self) -> str:
        """The Betti numbers as Macaulay2 prints them: column k is map k, and row d has the degrees d + k."""
        rows = self._table()
        widths = [max(map(len, column)) for column in zip(*rows)]
        return "\n".join(" ".join(it.rjust(width) for it, width in zip(row, widths)).rstrip() for row in rows)

    def _table(self) -> List[List[str]]:
        numbers = self.betti()
        low = min(degree - k for k, degree in numbers)
        columns = range(len(self.maps))
        rows = [["", *map(str, columns)], ["total:", *(str(len(it.rows)) for it in self.maps)]]
        for d in range(low, self.regularity() + 1):
            rows.append([f"{d}:", *(str(numbers.get((k, d + k), ".")) for k in columns)])
        return rows

    def _repr_html_(self) -> str:
        head, *rows = self._table()
        return table(head, rows)

    def _repr_svg_(self) -> Optional[str]:
        return picture("betti_picture", self, "the module")


@dataclass(frozen=True, repr=False)
class Freeness:
    """Whether the module of logarithmic derivations is free, and with how many generators.

    Where it is free there are a basis, its degrees (the exponents), and the certificate: the least point off the
    arrangement, and the inverse of the matrix whose rows are the values of the basis there.
    """

    is_free: bool
    generators: int
    basis: Optional[Tuple[GradedVector, ...]] = None
    point: Optional[Tuple[int, ...]] = None
    inverse: Optional[Tuple[Tuple[int, ...], ...]] = None

    def __bool__(self) -> bool:
        return self.is_free

    def __str__(self) -> str:
        if self.exponents is None:
            return f"not free, with {self.generators} generators"
        return f"free with exponents {', '.join(map(str, self.exponents))}"

    def __repr__(self) -> str:
        return f"<{self}>"

    def latex(self) -> str:
        """In words, and the basis as the rows of a matrix where there is one."""
        matrix = rf":\quad {matrix_text(self.basis, 'latex')}" if self.basis else ""
        return rf"\text{{{self}}}{matrix}"

    def _repr_latex_(self) -> str:
        return f"${self.latex()}$"

    @property
    def exponents(self) -> Optional[Tuple[int, ...]]:
        """The degrees of the basis, or None where the module is not free."""
        return None if self.basis is None else tuple(it.degree for it in self.basis)

    def values(self) -> Optional[Tuple[Tuple[int, ...], ...]]:
        """The matrix whose rows are the values of the basis at the point, or None where the module is not free."""
        if self.basis is None or self.point is None:
            return None
        point = self.point
        return tuple(tuple(entry(*point) for entry in it.entries) for it in self.basis)

    def is_certified(self) -> bool:
        """Whether the inverse is that of the values, worked out here and not by the program; never without a prime."""
        values = self.values()
        prime = self.basis[0].entries[0].ring.prime if self.basis else None
        if values is None or self.inverse is None or prime is None:
            return False
        columns = list(zip(*self.inverse))
        products = [[sum(map(mul, row, column)) % prime for column in columns] for row in values]
        return products == [[int(i == j) for j in range(len(values))] for i in range(len(values))]


@dataclass(frozen=True)
class Certificate:
    """Whether the module of logarithmic derivations is free, shown by a basis and its cofactor matrix.

    Both products of the matrix whose rows are the basis and the cofactor matrix are Q times the identity, where Q is
    the product of the forms with their multiplicities. Where it is not free there is the number of generators alone.
    """

    is_free: bool
    generators: int
    basis: Tuple[GradedVector, ...] = ()
    cofactor: Tuple[Tuple[Polynomial, ...], ...] = ()

    def __bool__(self) -> bool:
        return self.is_free

    @property
    def exponents(self) -> Optional[Tuple[int, ...]]:
        """The degrees of the basis, or None where the module is not free."""
        return tuple(it.degree for it in self.basis) if self.is_free else None


@dataclass(frozen=True)
class ModularChain:
    """Whether an arrangement is supersolvable: with a maximal chain of modular flats and its exponents."""

    is_supersolvable: bool
    flats: Tuple[Flat, ...] = ()
    exponents: Tuple[int, ...] = ()

    def __bool__(self) -> bool:
        return self.is_supersolvable


@dataclass(frozen=True)
class MultiRestriction:
    """What an arrangement cuts out of a hyperplane: forms with Ziegler's multiplicities, and whether they are free."""

    forms: Tuple[Tuple[int, ...], ...]
    multiplicities: Tuple[int, ...]
    freeness: Freeness


Value = Union[
    int, List[int], Tuple[int, ...], List[Tuple[int, ...]], List[Flat], Polynomial, Triple, ExteriorElement,
    List[GradedVector], Resolution, Freeness, Certificate, ModularChain, MultiRestriction, Limit, Refusal,
]
