"""The picture of the lines of an arrangement of rank 3 in the projective plane, drawn on a disc."""
from __future__ import annotations

import math
from dataclasses import dataclass
from typing import Dict, Iterable, List, Optional, Sequence, Tuple

from arrange import BadInput, Flat

from .position import ON_BOUNDARY, Plane, Vector, meeting_points, on_disc, placed
from .real_lines import Lines, Real, RealLines, RealPoint, given_lines, real_lines
from .svg import DIGIT, INK, PALE, WARNING, Picture, wrapped

WIDTH = 600.0
RADIUS = 268.0
TOP = 12.0
CENTRE = (WIDTH / 2, TOP + RADIUS + 8)
SAMPLES = 160
LINE_COLOURS = ("#1f5fa8", "#b3541e", "#2e7d4f", "#7a3f98", "#8a6d00", "#0b7a86", "#a13265", "#56606b")
POINT_COLOURS = {2: "#1d2733", 3: "#c0392b", 4: "#6a1b9a", 5: "#00695c", 6: "#ad6800"}


@dataclass(frozen=True)
class Curve:
    """A line as it is drawn: its number, its unit normal, and places along it in pixels."""

    number: int
    normal: Vector
    places: Tuple[Plane, ...]

    def is_boundary(self) -> bool:
        return math.hypot(self.normal[0], self.normal[1]) < ON_BOUNDARY


def lines_picture(
    rows: Sequence[Sequence[int]], flats: Sequence[Flat], prime: int, name: str, boundary: Optional[int] = None,
    real: Optional[Sequence[Real]] = None,
) -> Picture:
    """The picture of the arrangement of these forms over the field with `prime` elements, with these flats.

    It is drawn by the real forms where some are given, and else by integers with the same residues.
    """
    if boundary is not None and not 1 <= boundary <= len(rows):
        raise BadInput("boundary", f"there is no hyperplane {boundary}")
    planes = [flat.hyperplanes for flat in flats if flat.rank == 2]
    lines = real_lines(rows, prime, planes) if real is None else given_lines(real, planes)
    normals = placed(lines, planes, boundary)
    caption = _caption(lines, planes, prime, name, len(rows[0]))
    shown = wrapped(caption, WIDTH - 40, 12)
    legend_top = CENTRE[1] + RADIUS + 34
    picture = Picture(WIDTH, legend_top + 14 + 17 * len(shown) + 8, f"{name} in the projective plane")
    curves = [_curve(k, normal) for k, normal in enumerate(normals, 1)]
    picture.circle(CENTRE, RADIUS, fill="none", stroke="#b7c0ca", stroke_width=1, stroke_dasharray="5 4")
    for curve in curves:
        _draw_curve(picture, curve)
    marks = _draw_points(picture, normals, lines.points)
    _draw_numbers(picture, curves, marks)
    _legend(picture, lines, legend_top)
    for k, text in enumerate(shown):
        fill = INK if k == 0 else "#4a5561"
        picture.words((20, legend_top + 28 + 17 * k), text, 12, fill=fill)
    return picture


# ---- lines


def _pixel(place: Plane) -> Plane:
    return CENTRE[0] + RADIUS * place[0], CENTRE[1] - RADIUS * place[1]


def _curve(number: int, normal: Vector) -> Curve:
    """The places along a line: half of its great circle, from the boundary to the boundary."""
    a, b, c = normal
    flat = math.hypot(a, b)
    if flat < ON_BOUNDARY:
        turns = [2 * math.pi * k / SAMPLES for k in range(SAMPLES)]
        return Curve(number, normal, tuple(_pixel((math.cos(t), math.sin(t))) for t in turns))
    start, top = (-b / flat, a / flat, 0.0), (-a * c / flat, -b * c / flat, flat)
    places = []
    for k in range(SAMPLES + 1):
        t = math.pi * k / SAMPLES
        x, y, z = (math.cos(t) * p + math.sin(t) * q for p, q in zip(start, top))
        places.append(_pixel((x / (1 + z), y / (1 + z))))
    return Curve(number, normal, tuple(places))


def _colour(number: int) -> str:
    return LINE_COLOURS[(number - 1) % len(LINE_COLOURS)]


def _draw_curve(picture: Picture, curve: Curve) -> None:
    look: Dict[str, object] = {"fill": "none", "stroke": _colour(curve.number), "stroke_width": 1.8}
    if curve.is_boundary():
        picture.circle(CENTRE, RADIUS, **look)
        return
    (x, y), (end_x, end_y) = curve.places[0], curve.places[-1]
    c = curve.normal[2]
    if abs(c) < 1e-4:
        picture.line((x, y), (end_x, end_y), **look)
        return
    radius = RADIUS / abs(c)
    over_x, over_y = curve.places[len(curve.places) // 2]
    clockwise = (end_x - x) * (over_y - y) < (end_y - y) * (over_x - x)
    arc = f"A {radius:.2f} {radius:.2f} 0 0 {int(clockwise)} {end_x:.2f} {end_y:.2f}"
    picture.add("path", d=f"M {x:.2f} {y:.2f} {arc}", **look)


# ---- points


def _draw_points(picture: Picture, normals: Sequence[Vector], points: Sequence[RealPoint]) -> List[Tuple[Plane, float]]:
    """Draws the points by their multiplicities, and gives where they are and how large."""
    marks = []
    scale = 1.0 if len(points) <= 40 else max(0.45, math.sqrt(40 / len(points)))
    for point, place in zip(points, meeting_points(normals, [it.lines for it in points])):
        for at in map(_pixel, on_disc(place)):
            marks.append((at, _mark(picture, at, point, scale)))
    return marks


def _mark(picture: Picture, at: Plane, point: RealPoint, scale: float) -> float:
    """A mark for a point: a dot for two lines, a disc with the number for more; a ring for a piece of a flat."""
    count = len(point.lines)
    radius = scale * (4.5 if count == 2 or not point.is_flat else 9.5)
    if not point.is_flat:
        picture.circle(at, radius, fill="white", stroke=WARNING, stroke_width=1.6, stroke_dasharray="2.5 1.8")
        return radius
    picture.circle(at, radius, fill=_point_colour(count), stroke="white", stroke_width=1)
    if count > 2 and scale > 0.6:
        picture.middle(at, str(count), 11.5 * scale, fill="white", font_weight="bold")
    return radius


def _point_colour(count: int) -> str:
    return POINT_COLOURS.get(count, "#37474f")


# ---- the numbers of the lines


def _draw_numbers(picture: Picture, curves: Sequence[Curve], marks: Sequence[Tuple[Plane, float]]) -> None:
    """The number of each line on it, where it is farthest from the other lines, the points and the other numbers."""
    size = 11.0 if len(curves) <= 20 else 8.5
    taken: List[Tuple[Plane, float]] = list(marks)
    for curve in curves:
        text = str(curve.number)
        half = size * max(0.75, DIGIT * len(text) / 2 + 0.3)
        at = _free_place(curve, curves, taken, half)
        taken.append((at, half))
        picture.circle(at, half, fill="white", stroke=_colour(curve.number), stroke_width=1)
        picture.middle(at, text, size, fill=_colour(curve.number))


def _free_place(curve: Curve, curves: Sequence[Curve], taken: Sequence[Tuple[Plane, float]], half: float) -> Plane:
    others = [it for it in curves if it.number != curve.number]
    step = max(1, SAMPLES // 80)
    places = curve.places[4:-4:step] if not curve.is_boundary() else curve.places[::step]

    def room(at: Plane) -> float:
        marked = min((_distance(at, place) - size for place, size in taken), default=RADIUS)
        apart = min((_distance_to(at, other) for other in others), default=RADIUS)
        inside = RADIUS - _distance(at, CENTRE)
        edge = RADIUS if curve.is_boundary() else max(inside, 0.0)
        return min(marked, apart * 1.2, edge + 4, 4 * half)

    return max(places, key=room)


def _distance(one: Plane, other: Plane) -> float:
    return math.hypot(one[0] - other[0], one[1] - other[1])


def _distance_to(at: Plane, curve: Curve) -> float:
    """How far a place is from a line as it is drawn: from its circle, or from its straight segment."""
    x, y = (at[0] - CENTRE[0]) / RADIUS, (CENTRE[1] - at[1]) / RADIUS
    a, b, c = curve.normal
    if abs(c) < 1e-4:
        return RADIUS * abs(a * x + b * y) / math.hypot(a, b)
    return RADIUS * abs(math.hypot(x - a / c, y - b / c) - 1 / abs(c))


# ---- words


def _legend(picture: Picture, lines: RealLines, top: float) -> None:
    """How many points there are of each multiplicity, in a row."""
    counts: Dict[int, int] = {}
    for point in lines.points:
        if point.is_flat:
            counts[len(point.lines)] = counts.get(len(point.lines), 0) + 1
    x = 28.0
    for count in sorted(counts):
        _mark(picture, (x, top), RealPoint(tuple(range(count)), True), 1.0)
        text = f"{counts[count]} {_multiplicity(count)}"
        picture.words((x + 15, top + 4.5), text, 13)
        x += 15 + 13 * 0.6 * len(text) + 24
    if lines.apart:
        _mark(picture, (x, top), RealPoint((1, 2), False), 1.3)
        picture.words((x + 15, top + 4.5), "a piece of a point", 13, fill=WARNING)


def _multiplicity(count: int) -> str:
    return {2: "double", 3: "triple", 4: "quadruple", 5: "quintuple"}.get(count, f"of {count} lines")


def _caption(lines: RealLines, planes: Sequence[Lines], prime: int, name: str, dimension: int) -> Iterable[str]:
    opposite = "Opposite points of the circle are the same."
    yield f"{name}: {len(lines.forms)} lines, {len(planes)} points. {opposite}"
    cut = "" if dimension == 3 else f", on the subspace of the coordinates {', '.join(map(str, lines.columns))}"
    yield f"Forms over {prime} elements, {lines.reading}{cut}."
    if lines.apart:
        flats = "; ".join(_said_apart(lines, flat) for flat in lines.apart)
        yield f"Otherwise than over the field, {len(lines.apart)} of the {len(planes)} points come apart here: {flats}."


def _said_apart(lines: RealLines, flat: Lines) -> str:
    return f"{{{' '.join(map(str, flat))}}} into {len(lines.pieces(flat))}"


def differences(lines: RealLines) -> List[str]:
    """A line of words for each flat that comes apart, with its pieces."""
    return [
        f"{{{' '.join(map(str, flat))}}} is one point over the field, and drawn as "
        + ", ".join(f"{{{' '.join(map(str, piece))}}}" for piece in lines.pieces(flat))
        for flat in lines.apart
    ]
