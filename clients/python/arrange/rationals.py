"""What an arrangement over a prime field says of one over the rational numbers.

docs/over-the-rationals.md has the statements and where they come from.
"""
from __future__ import annotations

from dataclasses import dataclass
from fractions import Fraction
from itertools import combinations
from typing import TYPE_CHECKING, Dict, List, Optional, Sequence, Tuple

from .builds import Build, Deleted, Family, Forms, Graphic, Restricted
from .errors import BadInput, Limit
from .factors import factored
from .fields import PRIMES

if TYPE_CHECKING:
    from .arrangements import Arrangement

Rational = Tuple[Fraction, ...]


def rank_over_rationals(rows: Sequence[Sequence[Fraction]]) -> int:
    """The rank of some rows.

    >>> rank_over_rationals([(Fraction(1), Fraction(2)), (Fraction(2), Fraction(4))])
    1
    """
    left = [list(map(Fraction, row)) for row in rows]
    rank = 0
    for column in range(len(left[0]) if left else 0):
        found = next((k for k in range(rank, len(left)) if left[k][column]), None)
        if found is None:
            continue
        left[rank], left[found] = left[found], left[rank]
        lead = left[rank]
        for k in range(rank + 1, len(left)):
            factor = left[k][column] / lead[column]
            if factor:
                left[k] = [a - factor * b for a, b in zip(left[k], lead)]
        rank += 1
    return rank


def rational_rows(build: Build) -> List[Rational]:
    """The forms of an arrangement over the rationals, before they are taken into a field.

    >>> rational_rows(Restricted(Family("typeA", 2), 1))
    [(Fraction(1, 1), Fraction(-1, 1))]
    """
    if isinstance(build, Forms):
        if build.characteristic:
            raise BadInput("forms", f"they are of characteristic {build.characteristic}, and not rational")
        return list(build.rows) + [_unit(build.dimension, [(build.dimension - 1, 1)])] * build.is_cone
    if isinstance(build, Family):
        return _rows_of_family(build)
    if isinstance(build, Graphic):
        return [_unit(build.dimension, [(min(edge) - 1, 1), (max(edge) - 1, -1)]) for edge in build.edges]
    rows = rational_rows(build.whole)
    if isinstance(build, Deleted):
        return rows[: build.index - 1] + rows[build.index :]
    return _cut(rows, rows[build.index - 1])


def _unit(size: int, places: Sequence[Tuple[int, int]]) -> Rational:
    row = [Fraction(0)] * size
    for k, value in places:
        row[k] = Fraction(value)
    return tuple(row)


def _rows_of_family(build: Family) -> List[Rational]:
    """In the order of the program: of type B the coordinates first, then for each pair the difference and the sum."""
    size = build.dimension
    axes = [_unit(size, [(k, 1)]) for k in range(size)] if build.word in ("typeB", "boolean") else []
    signs = {"typeA": (-1,), "typeB": (-1, 1), "typeD": (-1, 1), "boolean": ()}[build.word]
    return axes + [_unit(size, [(i, 1), (j, sign)]) for i, j in combinations(range(size), 2) for sign in signs]


def _cut(rows: Sequence[Rational], own: Rational) -> List[Rational]:
    """What the others cut out of a hyperplane, whose form is solved for its last variable; each once."""
    last = max(k for k, it in enumerate(own) if it)
    seen: Dict[Rational, None] = {}
    for row in rows:
        factor = row[last] / own[last]
        cut = tuple(a - factor * b for k, (a, b) in enumerate(zip(row, own)) if k != last)
        lead = next((it for it in cut if it), None)
        if lead is not None:
            seen.setdefault(tuple(it / lead for it in cut))
    return list(seen)


def has_good_reduction(arrangement: Arrangement) -> bool:
    """Whether the arrangement's rational forms have the same matroid as their residues.

    They do exactly where each flat over the prime field has the same rank over the rationals.
    """
    rows = rational_rows(arrangement.build)
    if len(rows) != len(arrangement):
        return False
    if arrangement.is_affine:
        raise BadInput("arrangement", "its hyperplanes are affine, and this is asked of central ones")
    flats = arrangement.flats()
    return all(rank_over_rationals([rows[i - 1] for i in it.hyperplanes]) == it.rank for it in flats)


@dataclass(frozen=True)
class OverRationals:
    """An arrangement over the rationals by one over a prime field at which it has good reduction.

    `at` is that arrangement: what `rank`, `flats`, `poincare`, `characteristic`, `triple`, `circuits` and `nbc` say of
    it is so over the rationals, as they depend on the matroid alone.
    """

    at: Arrangement

    @property
    def prime(self) -> int:
        return self.at.field.prime

    def freeness(self) -> RationalFreeness:
        """What is known of freeness over the rationals, by that at the prime and by the characteristic polynomial.

        >>> from arrange import Arrangement, over_rationals
        >>> print(over_rationals(Arrangement.forms(["x", "y", "x - y"])).freeness())
        free over the rationals with exponents (1, 2): it is free at 32003, where it has good reduction
        """
        free = self.at.free()
        if free.exponents is not None:
            why = f"it is free at {self.prime}, where it has good reduction"
            return RationalFreeness(True, free.exponents, why)
        factors = factored(self.at.characteristic())
        if not factors.splits():
            why = f"the factor {factors.rest} of its characteristic polynomial has no integer root"
            return RationalFreeness(False, None, why)
        why = f"it is not free at {self.prime}, and that decides nothing over the rationals"
        return RationalFreeness(None, None, why)


@dataclass(frozen=True)
class RationalFreeness:
    """Whether an arrangement is free over the rationals, or None where that is not decided, and why."""

    is_free: Optional[bool]
    exponents: Optional[Tuple[int, ...]]
    why: str

    def __str__(self) -> str:
        words = {True: "free", False: "not free", None: "perhaps free"}[self.is_free]
        behind = f" with exponents {self.exponents}" if self.exponents is not None else ""
        return f"{words} over the rationals{behind}: {self.why}"


def over_rationals(arrangement: Arrangement, primes: Sequence[int] = PRIMES) -> OverRationals:
    """The arrangement of the same rational forms at the greatest of the primes where it has good reduction.

    >>> from arrange import Arrangement
    >>> over_rationals(Arrangement.forms(["x", "y", "x + 32003*y"], 31)).prime
    251
    """
    why = ["none was given"]
    for prime in sorted(primes, reverse=True):
        try:
            at = arrangement.over(prime)
            if has_good_reduction(at):
                return OverRationals(at)
            why.append(f"at {prime} the matroid is another one")
        except (BadInput, Limit) as fault:
            why.append(f"at {prime}: {fault}")
    raise BadInput("primes", f"no prime shows good reduction: {'; '.join(why[1:] or why)}")
