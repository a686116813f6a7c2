"""A position of real lines in which they are spread well over a disc.

The disc is a half of the unit sphere seen from the opposite pole. A line of the projective plane is a great circle, which
becomes an arc between opposite points of the boundary; these are the same point.
"""
from __future__ import annotations

import math
from itertools import combinations
from typing import Iterable, List, Optional, Sequence, Tuple

from .real_lines import Lines, RealLines

Vector = Tuple[float, float, float]
Plane = Tuple[float, float]
Matrix = Tuple[Vector, Vector, Vector]

ON_BOUNDARY = 1e-6  # the height over the boundary below which a point is taken to lie on it
ROUNDS = 300
MOST_COMPARED = 250  # with more points than this the place of the eye is chosen among the lines alone


def unit(vector: Sequence[float]) -> Vector:
    length = math.sqrt(sum(value * value for value in vector))
    x, y, z = (value / length for value in vector)
    return x, y, z


def dot(a: Sequence[float], b: Sequence[float]) -> float:
    return sum(x * y for x, y in zip(a, b))


def cross_unit(a: Vector, b: Vector) -> Vector:
    return unit((a[1] * b[2] - a[2] * b[1], a[2] * b[0] - a[0] * b[2], a[0] * b[1] - a[1] * b[0]))


# ---- the normals


def spread(normals: Sequence[Vector], planes: Sequence[Lines]) -> List[Vector]:
    """The unit normals behind the linear map that makes the sum of their projections a multiple of the identity.

    The map is found as the fixed point of Tyler's estimator of scatter. It depends on the arrangement alone, so that
    symmetries of it become rotations and reflections. It is there where no point lies on two thirds of the lines;
    elsewhere the estimator is drawn towards the identity.
    """
    share = max((len(it) for it in planes), default=0) / len(normals)
    pull = 0.0 if share < 2 / 3 else 0.1
    scatter: Matrix = ((1.0, 0.0, 0.0), (0.0, 1.0, 0.0), (0.0, 0.0, 1.0))
    for _ in range(ROUNDS):
        scatter = _next_scatter(normals, scatter, pull)
    factor = _cholesky(scatter)
    return [unit(_solve_lower(factor, normal)) for normal in normals]


def _next_scatter(normals: Sequence[Vector], scatter: Matrix, pull: float) -> Matrix:
    factor = _cholesky(scatter)
    rows = [[0.0] * 3 for _ in range(3)]
    for normal in normals:
        size = sum(value * value for value in _solve_lower(factor, normal))
        for i in range(3):
            for j in range(3):
                rows[i][j] += normal[i] * normal[j] / size
    trace = sum(rows[i][i] for i in range(3)) / 3
    entries = [[(1 - pull) * rows[i][j] / trace + (pull if i == j else 0.0) for j in range(3)] for i in range(3)]
    a, b, c = ((row[0], row[1], row[2]) for row in entries)
    return a, b, c


def _cholesky(matrix: Matrix) -> Matrix:
    """The lower triangular matrix whose product with its transpose is this one."""
    a = math.sqrt(matrix[0][0])
    b, c = matrix[1][0] / a, matrix[2][0] / a
    d = math.sqrt(max(matrix[1][1] - b * b, 1e-12))
    e = (matrix[2][1] - b * c) / d
    return (a, 0.0, 0.0), (b, d, 0.0), (c, e, math.sqrt(max(matrix[2][2] - c * c - e * e, 1e-12)))


def _solve_lower(factor: Matrix, vector: Sequence[float]) -> Vector:
    x = vector[0] / factor[0][0]
    y = (vector[1] - factor[1][0] * x) / factor[1][1]
    return x, y, (vector[2] - factor[2][0] * x - factor[2][1] * y) / factor[2][2]


# ---- the place of the eye


def placed(lines: RealLines, planes: Sequence[Lines], boundary: Optional[int] = None) -> List[Vector]:
    """The unit normals of the lines as they are drawn: line `boundary` is the boundary where it is given; else the eye
    stands where the points are farthest apart."""
    normals = spread([unit(form) for form in lines.forms], planes)
    points = meeting_points(normals, [it.lines for it in lines.points])
    eye = normals[boundary - 1] if boundary else _best_eye(normals, points)
    seen = turned(normals, frame(eye))
    angle = _best_angle(seen, turned(points, frame(eye)))
    return [unit((_turn(it, angle))) for it in seen]


def meeting_points(normals: Sequence[Vector], meetings: Iterable[Lines]) -> List[Vector]:
    """The points of some lines each, from the two of them that meet most squarely."""
    points = []
    for lines in meetings:
        pairs = combinations([normals[k - 1] for k in lines], 2)
        one, other = min(pairs, key=lambda it: abs(dot(*it)))
        points.append(cross_unit(one, other))
    return points


def frame(eye: Vector) -> Matrix:
    """An orthonormal basis whose last vector is the eye."""
    axis = min(((1.0, 0.0, 0.0), (0.0, 1.0, 0.0), (0.0, 0.0, 1.0)), key=lambda it: abs(dot(it, eye)))
    first = cross_unit(axis, eye)
    return first, cross_unit(eye, first), eye


def turned(vectors: Sequence[Vector], basis: Matrix) -> List[Vector]:
    return [(dot(basis[0], it), dot(basis[1], it), dot(basis[2], it)) for it in vectors]


def _turn(vector: Vector, angle: float) -> Vector:
    x, y, z = vector
    return x * math.cos(angle) - y * math.sin(angle), x * math.sin(angle) + y * math.cos(angle), z


def on_disc(point: Vector) -> List[Plane]:
    """The places of a point of the projective plane on the disc: two opposite ones where it lies on the boundary."""
    x, y, z = unit(point)
    if z < 0:
        x, y, z = -x, -y, -z
    if z < ON_BOUNDARY:
        return [(x, y), (-x, -y)]
    return [(x / (1 + z), y / (1 + z))]


def _best_eye(normals: Sequence[Vector], points: Sequence[Vector]) -> Vector:
    """The place from which the two nearest points are farthest apart: over a line, over a point, or between."""
    places = list(normals)
    if len(points) <= MOST_COMPARED:
        places += points
        places += [_mean(it) for it in combinations(normals[:16], 3) if len(normals) > 2]
    best, best_gap = places[0], -1.0
    for eye in places:
        gap = _least_gap(turned(points, frame(eye)))
        if gap > best_gap + 1e-9:
            best, best_gap = eye, gap
    return best


def _mean(vectors: Sequence[Vector]) -> Vector:
    total = [sum(it) for it in zip(*vectors)]
    return unit(total) if dot(total, total) > 1e-9 else vectors[0]


def _least_gap(points: Sequence[Vector]) -> float:
    """The least distance of two places on the disc, or of one from the boundary on which it does not lie.

    They are sorted by their first coordinates, so that near ones alone are compared.
    """
    places = sorted(place for point in points for place in on_disc(point))
    least = min((1 - math.hypot(*place) for place in places if math.hypot(*place) < 1 - 1e-5), default=1.0)
    for k, (x, y) in enumerate(places):
        for other_x, other_y in places[k + 1:]:
            if other_x - x >= least:
                break
            least = min(least, math.hypot(other_x - x, other_y - y))
    return least


def _best_angle(normals: Sequence[Vector], points: Sequence[Vector]) -> float:
    """The turn of the disc behind which most points are mirrored in the upright axis."""
    directions = sorted({round(math.atan2(y, x) % math.pi, 6) for x, y, _ in normals if math.hypot(x, y) > 1e-6})
    halves = [(a + b) / 2 for a, b in zip(directions, directions[1:])]
    turns = [shift - it for it in directions + halves for shift in (0.0, math.pi / 2)]
    return max(turns, key=lambda it: _mirrored([_turn(point, it) for point in points]), default=0.0)


def _mirrored(points: Sequence[Vector]) -> int:
    def key(x: float, y: float) -> Plane:
        return round(x, 4) + 0.0, round(y, 4) + 0.0

    places = [place for point in points for place in on_disc(point)]
    there = {key(*place) for place in places}
    return sum(key(-x, y) in there for x, y in places)
