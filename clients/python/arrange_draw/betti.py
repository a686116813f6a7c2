"""The Betti table of the module of logarithmic derivations, from its minimal free resolution."""
from __future__ import annotations

import math
from typing import Dict, Iterable, List, Sequence, Tuple

from arrange import Resolution

from .svg import INK, PALE, Picture, wrapped

WIDTH = 600.0
TOP = 16.0
MARGIN = 20.0
HEADS = 90.0  # the width of the column of heads
CELL_HEIGHT = 44.0
WIDEST = 150.0
NARROWEST = 62.0
NAMES = ("generators", "relations", *(f"{word} syzygies" for word in ("second", "third", "fourth", "fifth", "sixth")))


def betti_picture(resolution: Resolution, name: str, multiplicities: str = "") -> Picture:
    """The Betti numbers: column k is map k, and row d holds the degrees d + k, as in Macaulay2."""
    numbers = resolution.betti()
    columns = max((k for k, _ in numbers), default=0) + 1
    rows = _rows(numbers)
    cell = max(NARROWEST, min(WIDEST, (WIDTH - 2 * MARGIN - HEADS) / columns))
    width = max(WIDTH, 2 * MARGIN + HEADS + cell * columns)
    left = (width - HEADS - cell * columns) / 2
    bottom = TOP + 50 + CELL_HEIGHT * (len(rows) + 1)
    shown = wrapped(_caption(resolution, name, multiplicities), width - 40, 12)
    picture = Picture(width, bottom + 20 + 17 * len(shown), f"Betti table of {name}")
    centres = [left + HEADS + cell * (k + 0.5) for k in range(columns)]
    _draw_head(picture, centres, left)
    _draw_rows(picture, numbers, rows, centres, cell)
    for k, text in enumerate(shown):
        picture.words((20, bottom + 22 + 17 * k), text, 12, fill=INK if k == 0 else "#4a5561")
    return picture


def _rows(numbers: Dict[Tuple[int, int], int]) -> List[int]:
    shifts = [degree - k for k, degree in numbers]
    return list(range(min(shifts, default=0), max(shifts, default=0) + 1))


def _draw_head(picture: Picture, centres: Sequence[float], left: float) -> None:
    for k, x in enumerate(centres):
        picture.middle((x, TOP + 10), f"map {k}", 13, font_weight="bold")
        text = NAMES[k] if k < len(NAMES) else "syzygies"
        picture.middle((x, TOP + 28), text, 11, fill=PALE)
    picture.middle((left + HEADS / 2, TOP + 28), "degree \u2212 map", 11, fill=PALE)


def _draw_rows(
    picture: Picture, numbers: Dict[Tuple[int, int], int], rows: List[int], centres: Sequence[float], cell: float
) -> None:
    top = TOP + 44
    left, right = centres[0] - cell / 2 - HEADS, centres[-1] + cell / 2
    most = max(numbers.values(), default=1)
    for r, shift in enumerate(rows):
        y = top + CELL_HEIGHT * (r + 0.5)
        picture.middle((left + HEADS / 2, y), str(shift), 14, font_weight="bold")
        for k, x in enumerate(centres):
            _draw_cell(picture, (x, y), cell, numbers.get((k, shift + k), 0), most, shift + k)
    below = top + CELL_HEIGHT * len(rows)
    for y in (top, below):
        picture.line((left, y), (right, y), stroke=INK, stroke_width=1.2)
    picture.middle((left + HEADS / 2, below + CELL_HEIGHT / 2), "total", 13, fill=PALE)
    for k, x in enumerate(centres):
        total = sum(count for (column, _), count in numbers.items() if column == k)
        picture.middle((x, below + CELL_HEIGHT / 2), str(total), 15)


def _draw_cell(picture: Picture, at: Tuple[float, float], cell: float, count: int, most: int, degree: int) -> None:
    """A Betti number on a ground that is darker the greater it is, with its degree; a dot for none."""
    if not count:
        picture.circle(at, 1.6, fill="#b7c0ca")
        return
    share = math.log1p(count) / math.log1p(most)
    picture.add(
        "rect", x=at[0] - cell / 2 + 4, y=at[1] - CELL_HEIGHT / 2 + 4, width=cell - 8, height=CELL_HEIGHT - 8, rx=6,
        fill="#1f5fa8", fill_opacity=0.10 + 0.28 * share,
    )
    picture.middle((at[0], at[1] - 5), str(count), 16, font_weight="bold")
    picture.middle((at[0], at[1] + 11), f"degree {degree}", 9, fill="#4a5561")


def _caption(resolution: Resolution, name: str, multiplicities: str) -> Iterable[str]:
    behind = f" with the multiplicities {multiplicities}" if multiplicities else ""
    yield f"{name}: Betti numbers of logarithmic derivations{behind}."
    last = resolution.projective_dimension()
    free = ", so it is free" if last == 0 else ""
    yield f"Its projective dimension is {last}{free}, and its regularity {resolution.regularity()}."
    yield "Row d, map k: the rows of degree d + k of map k. Those of map 0 are generators."
