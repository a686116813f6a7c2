"""The picture of a wide lattice: a box for each kind of flats, which no count of covers tells apart."""
from __future__ import annotations

from dataclasses import dataclass
from typing import Dict, List, Sequence, Tuple

import arrange
from arrange import Flat

from .svg import INK, PALE, Picture, wrapped

WIDTH = 600.0
LEFT = 52.0
SIZE = 11.0
BOX = (104.0, 48.0)
GAP = 14.0
RISE = 118.0
Place = Tuple[float, float]


@dataclass(frozen=True)
class Kind:
    """Flats that look alike: one of them, how many they are, and its Möbius value."""

    flat: Flat
    count: int
    value: int


@dataclass(frozen=True)
class Kinds:
    """The kinds by rank, and for two of them how many of the second cover one of the first, and the other way round."""

    rows: Tuple[Tuple[Kind, ...], ...]
    covers: Dict[Tuple[Kind, Kind], Tuple[int, int]]


def kinds_of(flats: Sequence[Flat]) -> Kinds:
    """The kinds of printed flats.

    >>> three = [Flat(0, ()), Flat(1, (1,)), Flat(1, (2,)), Flat(1, (3,)), Flat(2, (1, 2, 3))]
    >>> list(kinds_of(three).covers.values())
    [(3, 1), (1, 3)]
    """
    lattice = arrange.Lattice(flats)
    kind_of: Dict[Flat, Kind] = {}
    rows: List[List[Kind]] = [[] for _ in range(lattice.rank + 1)]
    for part in lattice.kinds():
        kind = Kind(part[0], len(part), lattice.mobius(part[0]))
        rows[kind.flat.rank].append(kind)
        kind_of.update(dict.fromkeys(part, kind))
    covers: Dict[Tuple[Kind, Kind], Tuple[int, int]] = {}
    for row in rows:
        for kind in row:
            above = [kind_of[it] for it in lattice.upper_covers(kind.flat)]
            for other in dict.fromkeys(above):
                below = [kind_of[it] for it in lattice.lower_covers(other.flat)]
                covers[kind, other] = above.count(other), below.count(kind)
    return Kinds(tuple(map(tuple, rows)), covers)


def kinds_picture(flats: Sequence[Flat], name: str) -> Picture:
    """The kinds by rank from below: how many flats, on how many hyperplanes each, with which Möbius value."""
    kinds = kinds_of(flats)
    width = max(WIDTH, LEFT + 16 + max(len(row) for row in kinds.rows) * (BOX[0] + GAP))
    bottom = 30 + RISE * (len(kinds.rows) - 1) + BOX[1] / 2
    shown = wrapped(_caption(kinds, len(flats), name), width - 40, 12)
    picture = Picture(width, bottom + 62 + 17 * len(shown), f"The kinds of flats of {name}")
    places: Dict[Kind, Place] = {}
    for rank, row in enumerate(kinds.rows):
        for k, kind in enumerate(row):
            places[kind] = (LEFT + (width - LEFT - 16) * (k + 0.5) / len(row), bottom - RISE * rank)
        picture.words((14, bottom - RISE * rank + 4), f"rank {rank}", SIZE, fill=PALE)
    for (low, high), counts in kinds.covers.items():
        _draw_cover(picture, places[low], places[high], counts)
    for kind, at in places.items():
        _draw_kind(picture, kind, at)
    for k, text in enumerate(shown):
        picture.words((20, bottom + 50 + 17 * k), text, 12, fill=INK if k == 0 else "#4a5561")
    return picture


def _draw_cover(picture: Picture, low: Place, high: Place, counts: Tuple[int, int]) -> None:
    """A line with both counts on it, each at the flats that it counts for."""
    picture.line(low, high, stroke="#9aa7b4", stroke_width=1)
    for share, count in ((0.34, counts[0]), (0.66, counts[1])):
        at = low[0] + share * (high[0] - low[0]), low[1] + share * (high[1] - low[1])
        picture.circle(at, 8, fill="white")
        picture.middle(at, str(count), 10, fill="#4a5561")


def _draw_kind(picture: Picture, kind: Kind, at: Place) -> None:
    left, top = at[0] - BOX[0] / 2, at[1] - BOX[1] / 2
    picture.add("rect", x=left, y=top, width=BOX[0], height=BOX[1], rx=5, fill="white", stroke="#b7c0ca", stroke_width=1)
    on = len(kind.flat.hyperplanes)
    picture.middle((at[0], top + 10), f"{kind.count} flat{'s' * (kind.count != 1)}", SIZE, font_weight="bold")
    picture.middle((at[0], top + 24), f"on {on} hyperplane{'s' * (on != 1)}", SIZE)
    colour = "#1f5fa8" if kind.value > 0 else "#b3541e"
    picture.middle((at[0], top + 38), str(kind.value).replace("-", "\u2212"), SIZE, fill=colour, font_weight="bold")


def _caption(kinds: Kinds, total: int, name: str) -> List[str]:
    many = sum(map(len, kinds.rows))
    return [
        f"{name}: the {total} flats, in {many} kinds by rank, {', '.join(str(len(row)) for row in kinds.rows)}.",
        "Flats of a kind are on as many hyperplanes and have as many covers of each kind; a symmetry keeps each kind.",
        "In a box how many there are, on how many hyperplanes each, and its Möbius value; on a line how many of the upper "
        "kind cover one of the lower, and above it how many of the lower kind one of the upper covers.",
    ]
