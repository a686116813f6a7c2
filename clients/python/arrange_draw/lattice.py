"""The picture of a lattice of flats by rank."""
from __future__ import annotations

from bisect import bisect, insort
from dataclasses import dataclass, replace
from typing import Dict, Iterable, List, Optional, Sequence, Tuple

import arrange
from arrange import BadInput, Flat

from .svg import DIGIT, INK, PALE, Picture, number, wrapped

Edge = Tuple[int, int]

WIDTH = 600.0
LEFT = 52.0  # the width of the column of ranks
SIZE = 11.0
LINE = 12.5
RIGHT = 16.0
GAP = 7.0
DOT = 2.2  # the least width of a flat that is a dot
MOST_APART = 40.0
RISE = 92.0
SWEEPS = 12
MOST_LABELLED = 60  # with more flats than this in a rank they are dots without labels
MOST_TURNED = 250  # the same of labels that are turned
MOST_EDGES = 4000
MARK = "#c8860d"


@dataclass(frozen=True)
class Lattice:
    """The flats by rank, with the values of the Möbius function from the whole space and the covers between them."""

    ranks: Tuple[Tuple[Flat, ...], ...]
    moebius: Dict[Tuple[int, ...], int]
    covers: Tuple[Tuple[Edge, ...], ...]  # for each rank but the last: the places of a flat and of one that covers it
    top: Flat

    def hyperplanes(self) -> int:
        return len(self.top.hyperplanes)


def lattice_of(flats: Sequence[Flat]) -> Lattice:
    """The lattice of printed flats.

    >>> three = [Flat(0, ()), Flat(1, (1,)), Flat(1, (2,)), Flat(1, (3,)), Flat(2, (1, 2, 3))]
    >>> lattice_of(three).moebius
    {(): 1, (1,): -1, (2,): -1, (3,): -1, (1, 2, 3): 2}
    """
    whole = arrange.Lattice(flats)
    ranks = tuple(whole.of_rank(rank) for rank in range(whole.rank + 1))
    places = {flat: k for rank in ranks for k, flat in enumerate(rank)}
    covers: List[List[Edge]] = [[] for _ in ranks[1:]]
    for low, high in whole.covers():
        covers[low.rank].append((places[low], places[high]))
    return Lattice(ranks, {it.hyperplanes: whole.mobius(it) for it in whole}, tuple(map(tuple, covers)), ranks[-1][0])


def between_ranks(lattice: Lattice, low: int, high: int) -> Lattice:
    """The flats from one rank to another alone, with the values that they have in the whole lattice."""
    if not 0 <= low <= high < len(lattice.ranks):
        raise BadInput("ranks", f"{low}..{high} is not within 0..{len(lattice.ranks) - 1}")
    return Lattice(lattice.ranks[low:high + 1], lattice.moebius, lattice.covers[low:high], lattice.top)


# ---- the order within a rank


def crossings(edges: Iterable[Edge]) -> int:
    """How many pairs of edges between two rows cross."""
    seen: List[int] = []
    count = 0
    for _, high in sorted(edges):
        count += len(seen) - bisect(seen, high)
        insort(seen, high)
    return count


def ordered(lattice: Lattice) -> List[List[int]]:
    """For each rank the order of its flats from left to right, with few crossings.

    In sweeps up and down each flat goes to the mean place of those that it covers, or that cover it.
    """
    orders = [list(range(len(rank))) for rank in lattice.ranks]
    best, least = [list(it) for it in orders], _all_crossings(lattice, orders)
    if sum(map(len, lattice.covers)) > MOST_EDGES:
        return best
    for sweep in range(SWEEPS):
        upwards = sweep % 2 == 0
        for rank in range(1, len(orders)) if upwards else range(len(orders) - 2, 0, -1):
            _sort_row(lattice, orders, rank, upwards)
        count = _all_crossings(lattice, orders)
        if count < least:
            best, least = [list(it) for it in orders], count
    return best


def _all_crossings(lattice: Lattice, orders: Sequence[Sequence[int]]) -> int:
    places = [{flat: k for k, flat in enumerate(order)} for order in orders]
    return sum(
        crossings((places[rank][i], places[rank + 1][j]) for i, j in edges) for rank, edges in enumerate(lattice.covers)
    )


def _sort_row(lattice: Lattice, orders: List[List[int]], rank: int, upwards: bool) -> None:
    fixed = rank - 1 if upwards else rank + 1
    place = {flat: k for k, flat in enumerate(orders[fixed])}
    touching: Dict[int, List[int]] = {}
    for i, j in lattice.covers[min(rank, fixed)]:
        mine, theirs = (j, i) if upwards else (i, j)
        touching.setdefault(mine, []).append(place[theirs])
    orders[rank].sort(key=lambda it: sum(touching[it]) / len(touching[it]))


# ---- the picture


@dataclass(frozen=True)
class Label:
    """A flat as it is written: its lines of numbers, and its Möbius value."""

    lines: Tuple[str, ...]
    value: str
    turned: bool = False  # its lines are read from below

    def width(self) -> float:
        return self._across() if self.turned else self._along()

    def height(self) -> float:
        return self._along() if self.turned else self._across()

    def _along(self) -> float:
        return 0.62 * SIZE * max(map(len, [*self.lines, self.value])) + 10

    def _across(self) -> float:
        return LINE * (len(self.lines) + 1) + 8


def label_of(flat: Flat, lattice: Lattice, most: int) -> Label:
    """The label of a flat, with at most so many numbers in a line; without blanks where all are digits."""
    members = flat.hyperplanes
    whole = lattice.hyperplanes()
    value = str(lattice.moebius[members]).replace("-", "\u2212")
    if len(members) == whole and whole > 4:
        return Label((f"1\u2013{whole}",), value)
    between = "" if whole < 10 else " "
    lines = [between.join(map(str, members[k:k + most])) for k in range(0, len(members), most)]
    return Label(tuple(lines) or ("\u2205",), value)


def _labels(lattice: Lattice, turned: bool) -> List[List[Label]]:
    """The labels of each rank, in as few lines as the width of the picture lets them have; those that are turned in one."""
    rows = []
    if turned:
        size = lattice.hyperplanes()
        return [[replace(label_of(it, lattice, size), turned=True) for it in rank] for rank in lattice.ranks]
    for rank in lattice.ranks:
        most = max(len(it.hyperplanes) for it in rank) or 1
        row = [label_of(it, lattice, most) for it in rank]
        while most > 1 and sum(it.width() + GAP for it in row) > WIDTH - LEFT - RIGHT:
            most -= 1
            row = [label_of(it, lattice, most) for it in rank]
        rows.append(row)
    return rows


@dataclass(frozen=True)
class Look:
    """How a lattice is drawn: the ranks of its flats, whether its labels are turned, and flats that are marked."""

    ranks: Optional[Tuple[int, int]] = None
    turned: bool = False
    marked: Tuple[Flat, ...] = ()


def lattice_picture(flats: Sequence[Flat], name: str, look: Look = Look()) -> Picture:
    """The flats by rank from below, each with its hyperplanes and its Möbius value, and a line for each cover."""
    whole = lattice_of(flats)
    first, last = look.ranks or (0, len(whole.ranks) - 1)
    lattice = between_ranks(whole, first, last)
    labels = _labels(lattice, look.turned)
    small = max(map(len, lattice.ranks)) > (MOST_TURNED if look.turned else MOST_LABELLED)
    rise = max(RISE, *(it.height() + 46 for row in labels for it in row)) if look.turned and not small else RISE
    dot = max(DOT, (WIDTH - LEFT - RIGHT) / max(map(len, lattice.ranks)))
    widths = [[dot if small else it.width() + GAP for it in row] for row in labels]
    width = max(WIDTH, LEFT + RIGHT + max(sum(row) for row in widths))
    shown = wrapped(_caption(lattice, name, small, look), width - 40, 12)
    bottom = 30 + rise * (len(labels) - 1) + max(it.height() for it in labels[-1]) / 2
    below = 20 + (max(it.height() for it in labels[0]) / 2 if look.turned and not small else 30)
    picture = Picture(width, bottom + below + 12 + 17 * len(shown), f"The lattice of flats of {name}")
    places = _places(ordered(lattice), widths, width, bottom, rise)
    _draw_covers(picture, lattice, places, look.marked)
    for rank, row in enumerate(labels):
        picture.words((14, places[rank][0][1] + 4), f"rank {first + rank}", 11, fill=PALE)
        for flat, label, at in zip(lattice.ranks[rank], row, places[rank]):
            _draw_flat(picture, label, at, min(2.4, 0.4 * dot) if small else None, flat in look.marked)
    for k, text in enumerate(shown):
        picture.words((20, bottom + below + 17 * k), text, 12, fill=INK if k == 0 else "#4a5561")
    return picture


def _places(
    orders: Sequence[Sequence[int]], widths: Sequence[Sequence[float]], width: float, bottom: float, rise: float
) -> List[List[Tuple[float, float]]]:
    """For each rank the places of its flats, in the order in which they were printed."""
    rows = []
    for rank, (order, those) in enumerate(zip(orders, widths)):
        room = width - LEFT - RIGHT - sum(those)
        more = min(room / len(order), MOST_APART)
        x = LEFT + (room - more * len(order)) / 2
        row = [(0.0, 0.0)] * len(order)
        for flat in order:
            share = those[flat] + more
            row[flat] = (x + share / 2, bottom - rise * rank)
            x += share
        rows.append(row)
    return rows


def _draw_covers(
    picture: Picture, lattice: Lattice, places: Sequence[Sequence[Tuple[float, float]]], marked: Sequence[Flat]
) -> None:
    many = sum(map(len, lattice.covers))
    stroke = {"stroke": "#9aa7b4", "stroke_width": 1 if many < 200 else 0.5}
    if many >= 1000:
        stroke["stroke_opacity"] = 0.4
    for rank, edges in enumerate(lattice.covers):
        for i, j in edges:
            ends = lattice.ranks[rank][i] in marked and lattice.ranks[rank + 1][j] in marked
            picture.line(places[rank][i], places[rank + 1][j], **({"stroke": MARK, "stroke_width": 3} if ends else stroke))


def _draw_flat(picture: Picture, label: Label, at: Tuple[float, float], dot: Optional[float], is_marked: bool) -> None:
    colour = "#1f5fa8" if label.value[0] != "\u2212" else "#b3541e"
    if dot is not None:
        picture.circle(at, 2 * dot if is_marked else dot, fill=MARK if is_marked else colour)
        return
    width, height = label.width(), label.height()
    left, top = at[0] - width / 2, at[1] - height / 2
    edge, strong = (MARK, 2.5) if is_marked else ("#b7c0ca", 1.0)
    picture.add("rect", x=left, y=top, width=width, height=height, rx=5, fill="white", stroke=edge, stroke_width=strong)
    turn = {"transform": f"rotate(-90 {number(at[0])} {number(at[1])})"} if label.turned else {}
    first = at[1] - LINE * (len(label.lines) + 1) / 2
    for k, text in enumerate(label.lines):
        picture.middle((at[0], first + LINE * (k + 0.5)), text, SIZE, **turn)
    below = first + LINE * (len(label.lines) + 0.5)
    picture.middle((at[0], below), label.value, SIZE, fill=colour, font_weight="bold", **turn)


def _caption(lattice: Lattice, name: str, small: bool, look: Look) -> Iterable[str]:
    total = sum(map(len, lattice.ranks))
    ranks = "" if look.ranks is None else f" {look.ranks[0]} to {look.ranks[1]}"
    yield f"{name}: the {total} flats by rank{ranks}, {', '.join(str(len(rank)) for rank in lattice.ranks)}."
    if look.marked:
        yield "The flats of a maximal chain of modular flats are marked, so it is supersolvable."
    if small:
        yield "Each dot is a flat: blue where its Möbius value is positive, red where it is negative."
    else:
        digits = ", as digits" if lattice.hyperplanes() < 10 else ""
        yield f"In a box the hyperplanes through the flat{digits}, and below its Möbius value."
    yield f"Sums of the values by rank: {', '.join(_sums(lattice))}."


def _sums(lattice: Lattice) -> List[str]:
    """The coefficients of the characteristic polynomial, from its degree downwards."""
    totals = [sum(lattice.moebius[it.hyperplanes] for it in rank) for rank in lattice.ranks]
    return [number(it).replace("-", "\u2212") for it in totals]
