"""The forms over a prime field as lines of the real projective plane, and where these do not meet as the flats say.

Over a prime field lines have no real position. They get one from integers with the same residues; then three lines may
meet in one point over the field and in three over the reals, never the other way.
"""
from __future__ import annotations

import math
from dataclasses import dataclass
from itertools import combinations
from typing import Dict, List, Sequence, Set, Tuple

from arrange import BadInput

Form = Tuple[int, ...]
Real = Tuple[float, ...]
Lines = Tuple[int, ...]

PRINTED = "drawn by the residues of least absolute value"
GIVEN = "drawn by the real forms that were given"
NEAR = 1e-7  # points of the sphere that are as near to each other are one
SCALED = "each form drawn by the multiple whose residues are of least absolute value"


@dataclass(frozen=True)
class RealPoint:
    """A point where real lines meet: the numbers of the lines, and whether they are a whole flat of rank 2."""

    lines: Lines
    is_flat: bool


@dataclass(frozen=True)
class RealLines:
    """Real lines by forms in three variables, their points, and the flats of rank 2 that come apart in them."""

    forms: Tuple[Real, ...]
    points: Tuple[RealPoint, ...]
    apart: Tuple[Lines, ...]
    reading: str
    columns: Tuple[int, ...]

    def pieces(self, flat: Lines) -> List[Lines]:
        """The real points into which a flat comes apart."""
        return [point.lines for point in self.points if set(point.lines) <= set(flat)]


def real_lines(rows: Sequence[Sequence[int]], prime: int, planes: Sequence[Lines]) -> RealLines:
    """The lines of an arrangement of rank 3 whose flats of rank 2 are `planes`.

    The forms are read as they are printed, or as their multiples of least residues where these agree with more flats.
    """
    columns = pivot_columns(rows, prime)
    if len(columns) != 3:
        raise BadInput("arrangement", f"its rank is {len(columns)}, and only lines of rank 3 are drawn in the plane")
    cut = [tuple(row[k] for k in columns) for row in rows]
    forms = [tuple(balanced(value, prime) for value in row) for row in cut]
    readings = [(PRINTED, forms), (SCALED, [least_multiple(row, prime) for row in cut])]
    drawn = [_drawn(forms, planes, reading, columns) for reading, forms in readings]
    return min(drawn, key=lambda it: len(it.apart))


def given_lines(forms: Sequence[Real], planes: Sequence[Lines]) -> RealLines:
    """The lines of real forms that are given, such as those over a golden ratio, held against the flats of rank 2."""
    count = max((it for plane in planes for it in plane), default=len(forms))
    if len(forms) != count or any(len(it) != 3 or not any(it) for it in forms):
        raise BadInput("real forms", f"they are no {count} rows of three numbers, not all of them 0")
    return _with_points(forms, near_crossings(forms), planes, GIVEN, range(3))


def _drawn(forms: Sequence[Form], planes: Sequence[Lines], reading: str, columns: Sequence[int]) -> RealLines:
    return _with_points(forms, real_crossings(forms), planes, reading, columns)


def _with_points(
    forms: Sequence[Real], crossings: Sequence[Lines], planes: Sequence[Lines], reading: str, columns: Sequence[int]
) -> RealLines:
    _check(crossings, planes)
    points = tuple(RealPoint(lines, lines in set(planes)) for lines in crossings)
    apart = tuple(flat for flat in planes if flat not in set(crossings))
    return RealLines(tuple(forms), points, apart, reading, tuple(k + 1 for k in columns))


def _check(crossings: Sequence[Lines], planes: Sequence[Lines]) -> None:
    """Lines that meet in the reals meet over the field: else the flats are those of other forms."""
    flat_of: Dict[Lines, Lines] = {pair: flat for flat in planes for pair in combinations(flat, 2)}
    for lines in crossings:
        found = {flat_of.get(pair, ()) for pair in combinations(lines, 2)}
        if len(found) != 1 or () in found:
            numbers = " ".join(map(str, lines))
            raise BadInput("flats", f"the forms {numbers} meet in one point, and the flats don't say so")


def balanced(residue: int, prime: int) -> int:
    """The number of least absolute value with this residue."""
    residue %= prime
    return residue - prime if 2 * residue > prime else residue


def least_multiple(row: Sequence[int], prime: int) -> Form:
    """The multiple of a form whose residues of least absolute value have the least maximum.

    >>> least_multiple((1, 16, 0), 31)
    (2, 1, 0)
    """
    first = next(value for value in row if value % prime)
    best: Form = tuple(balanced(value, prime) for value in row)
    k = 1
    while k < _size(best)[0]:
        scale = k * pow(first, -1, prime)
        best = min(best, tuple(balanced(scale * value, prime) for value in row), key=_size)
        k += 1
    return best


def _size(form: Form) -> Tuple[int, int]:
    """The greatest absolute value, and the sum of all."""
    values = [abs(value) for value in form]
    return max(values), sum(values)


def pivot_columns(rows: Sequence[Sequence[int]], prime: int) -> List[int]:
    """The columns, from 0, at which an echelon form of the rows has its leading ones: the forms cut with the subspace
    where the other coordinates are 0 have the same flats."""
    left = [[value % prime for value in row] for row in rows]
    columns: List[int] = []
    for column in range(len(left[0]) if left else 0):
        lead = next((row for row in left if row[column]), None)
        if lead is None:
            continue
        columns.append(column)
        inverse = pow(lead[column], -1, prime)
        others = [row for row in left if row is not lead]
        left = [[(a - row[column] * inverse * b) % prime for a, b in zip(row, lead)] for row in others]
    return columns


def real_crossings(forms: Sequence[Form]) -> List[Lines]:
    """For each point where two real lines or more meet, the numbers of all lines through it, from 1."""
    through: Dict[Form, Set[int]] = {}
    for (i, a), (j, b) in combinations(enumerate(forms, 1), 2):
        through.setdefault(_primitive(cross(a, b)), set()).update((i, j))
    return sorted((tuple(sorted(it)) for it in through.values()), key=lambda it: (len(it), it))


def near_crossings(forms: Sequence[Real]) -> List[Lines]:
    """The same of forms with real coefficients, where points that differ by rounding alone are one."""
    found: List[Tuple[Real, Set[int]]] = []
    for (i, a), (j, b) in combinations(enumerate(forms, 1), 2):
        x, y, z = (a[(k + 1) % 3] * b[(k + 2) % 3] - a[(k + 2) % 3] * b[(k + 1) % 3] for k in range(3))
        length = math.hypot(x, y, z)
        if length < NEAR * math.hypot(*a) * math.hypot(*b):
            raise BadInput("real forms", f"the forms {i} and {j} are multiples of each other")
        at = (x / length, y / length, z / length)
        through = next((it for place, it in found if _is_near(place, at)), None)
        if through is None:
            found.append((at, {i, j}))
        else:
            through.update((i, j))
    return sorted((tuple(sorted(it)) for _, it in found), key=lambda it: (len(it), it))


def _is_near(one: Real, other: Real) -> bool:
    """Whether two unit vectors are the same or opposite."""
    same = math.dist(one, other)
    opposite = math.dist(one, [-it for it in other])
    return min(same, opposite) < NEAR


def cross(a: Sequence[int], b: Sequence[int]) -> Form:
    return a[1] * b[2] - a[2] * b[1], a[2] * b[0] - a[0] * b[2], a[0] * b[1] - a[1] * b[0]


def _primitive(point: Form) -> Form:
    """The multiple without a common divisor whose first number that is not 0 is positive."""
    divisor = math.gcd(*point)
    sign = 1 if next(value for value in point if value) > 0 else -1
    return tuple(sign * value // divisor for value in point)
