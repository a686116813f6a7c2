"""Linear algebra over a prime field, on rows of residues: ranks, traces on a hyperplane, and forms up to a factor."""
from __future__ import annotations

from typing import Dict, List, Optional, Sequence, Tuple

Residues = Tuple[int, ...]


def monic(row: Sequence[int], prime: int) -> Residues:
    """The multiple of a row whose first coefficient other than 0 is 1; of a row of zeros the row.

    >>> monic((0, 2, 4), 31)
    (0, 1, 2)
    """
    lead = next((it for it in row if it % prime), 0)
    return tuple(it * pow(lead, -1, prime) % prime for it in row) if lead else tuple(row)


class Echelon:
    """The span of rows, which are taken one by one, in reduced form."""

    def __init__(self, prime: int) -> None:
        self.prime = prime
        self.rows: Dict[int, Residues] = {}  # by the column of the leading 1

    def rest(self, row: Sequence[int]) -> Residues:
        """The row minus a combination of those that were taken, with 0 in their leading columns."""
        rest = list(row)
        for column, taken in self.rows.items():
            factor = rest[column]
            if factor:
                rest = [(a - factor * b) % self.prime for a, b in zip(rest, taken)]
        return tuple(it % self.prime for it in rest)

    def take(self, row: Sequence[int]) -> bool:
        """Whether the row lies outside the span, into which it comes."""
        rest = self.rest(row)
        if not any(rest):
            return False
        column = next(k for k, it in enumerate(rest) if it)
        new = monic(rest, self.prime)
        for other, taken in self.rows.items():
            factor = taken[column]
            if factor:
                self.rows[other] = tuple((a - factor * b) % self.prime for a, b in zip(taken, new))
        self.rows[column] = new
        return True

    @property
    def rank(self) -> int:
        return len(self.rows)

    def columns(self) -> List[int]:
        """The columns, from 0, of the leading ones; in these alone the rows have the same relations."""
        return sorted(self.rows)


def echelon(rows: Sequence[Sequence[int]], prime: int) -> Echelon:
    """The span of some rows.

    >>> echelon([(1, 1, 0), (2, 2, 0), (0, 0, 3)], 31).columns()
    [0, 2]
    """
    span = Echelon(prime)
    for row in rows:
        span.take(row)
    return span


def traces(rows: Sequence[Sequence[int]], hyperplane: Sequence[int], prime: int) -> List[Optional[int]]:
    """For each row the number, from 0, of what it cuts out of a hyperplane, in the order of the first of each; or None.

    It is None for multiples of the hyperplane's own form.

    >>> traces([(1, 0, 0), (0, 1, 0), (1, 1, 0), (0, 0, 1)], (1, 0, 0), 31)
    [None, 0, 0, 1]
    """
    modulo = echelon([hyperplane], prime)
    seen: Dict[Residues, int] = {}
    found: List[Optional[int]] = []
    for row in rows:
        rest = modulo.rest(row)
        found.append(seen.setdefault(monic(rest, prime), len(seen)) if any(rest) else None)
    return found


def trace_rows(rows: Sequence[Sequence[int]], hyperplane: Sequence[int], prime: int) -> List[Residues]:
    """The forms that rows become on a hyperplane, where its form is solved for its last variable; each once.

    >>> trace_rows([(1, 0, 0), (0, 1, 0), (1, 1, 0), (0, 0, 1)], (1, 0, 0), 31)
    [(1, 0), (0, 1)]
    """
    last = max(k for k, it in enumerate(hyperplane) if it % prime)
    inverse = pow(hyperplane[last], -1, prime)
    seen: Dict[Residues, None] = {}
    for row in rows:
        factor = row[last] * inverse
        cut = tuple((it - factor * own) % prime for k, (it, own) in enumerate(zip(row, hyperplane)) if k != last)
        if any(cut):
            seen.setdefault(monic(cut, prime))
    return list(seen)
