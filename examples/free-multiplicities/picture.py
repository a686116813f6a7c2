"""The tables of the survey as a picture: on A3 the differences by prime and entries, on A4 the free ones by kind."""
from __future__ import annotations

import pathlib
from typing import Callable, Dict, List, NamedTuple, Sequence, Tuple

from arrange_draw.svg import INK, PALE, Picture
from tables import read_table

MARGIN, GAP, NARROWEST = 24.0, 48.0, 680.0
CELL_WIDTH, CELL_HEIGHT, HEAD = 88.0, 42.0, 118.0
TITLE = 58.0  # the height of what stands over the cells of a panel
WHITE, RED, BLUE = (255, 255, 255), (226, 124, 104), (128, 184, 218)
Colour = Tuple[int, int, int]


class Cell(NamedTuple):
    """What a cell says in two lines, and how full its colour is, from 0 to 1."""

    large: str
    small: str
    share: float


class Panel(NamedTuple):
    """A grid of cells: its title, what its rows and columns are, and its colour."""

    title: str
    under: str
    rows: Sequence[str]
    columns: Sequence[str]
    cells: Dict[Tuple[str, str], Cell]
    colour: Colour

    def width(self) -> float:
        return HEAD + CELL_WIDTH * len(self.columns)

    def height(self) -> float:
        return TITLE + CELL_HEIGHT * len(self.rows)


def picture_of(folder: pathlib.Path) -> Picture:
    """The panels of the counts that stand in a folder, one below the other."""
    makers: List[Tuple[str, Callable[[List[Dict[str, str]]], Panel]]] = [
        ("a3-counts.csv", differences_panel), ("a4-counts.csv", kinds_panel),
    ]
    panels = [make(read_table(folder / name)) for name, make in makers if (folder / name).exists()]
    width = max([NARROWEST, *(panel.width() for panel in panels)]) + 2 * MARGIN
    height = sum(panel.height() for panel in panels) + GAP * (len(panels) - 1) + 2 * MARGIN
    picture = Picture(width, height, "Free multiplicities on the braid arrangements")
    top = MARGIN
    for panel in panels:
        draw(picture, panel, top)
        top += panel.height() + GAP
    return picture


def differences_panel(rows: List[Dict[str, str]]) -> Panel:
    """For each prime and greatest entry, how many multiplicities on A3 are free there and not in characteristic 0, or
    not free there and free in characteristic 0."""
    cells = {}
    for row in rows:
        more, less, asked = int(row["only_here"]), int(row["only_in_0"]), int(row["asked"])
        large = "0" if more == less == 0 else " ".join([f"+{more}"] * (more > 0) + [f"\u2212{less}"] * (less > 0))
        cells[row["prime"], row["greatest"]] = Cell(large, f"of {asked}", (more + less) / asked)
    return Panel(
        "A3: multiplicities whose freeness at the prime differs from that in characteristic 0",
        "+ free at the prime alone, \u2212 free in characteristic 0 alone; by prime and greatest entry",
        _names(rows, "prime"), _names(rows, "greatest"), cells, RED,
    )


def kinds_panel(rows: List[Dict[str, str]]) -> Panel:
    """For each kind and greatest entry, how many multiplicities on A4 are free at the greatest prime."""
    prime = max(int(row["prime"]) for row in rows)
    here = [row for row in rows if int(row["prime"]) == prime]
    cells = {}
    for row in here:
        free, asked = int(row["free"]), int(row["asked"])
        cells[row["kind"], row["greatest"]] = Cell(str(free), f"of {asked}", free / asked)
    kinds = [kind for kind in ("signed graph", "both", "free vertex", "neither") if kind in _names(here, "kind")]
    return Panel(
        f"A4: free multiplicities at {prime}", "by the theorem that says so, and greatest entry",
        kinds, _names(here, "greatest"), cells, BLUE,
    )


def _names(rows: List[Dict[str, str]], column: str) -> List[str]:
    return list(dict.fromkeys(row[column] for row in rows))


def draw(picture: Picture, panel: Panel, top: float) -> None:
    picture.words((MARGIN, top + 14), panel.title, 14, font_weight="bold")
    picture.words((MARGIN, top + 32), panel.under, 11, fill=PALE)
    left, under = MARGIN + HEAD, top + TITLE
    for c, column in enumerate(panel.columns):
        picture.middle((left + CELL_WIDTH * (c + 0.5), under - 10), column, 12)
    for r, row in enumerate(panel.rows):
        y = under + CELL_HEIGHT * r
        picture.words((left - 10, y + CELL_HEIGHT / 2 + 4), row, 12, text_anchor="end")
        for c, column in enumerate(panel.columns):
            if (row, column) in panel.cells:
                _draw_cell(picture, panel.cells[row, column], panel.colour, (left + CELL_WIDTH * c, y))


def _draw_cell(picture: Picture, cell: Cell, full: Colour, at: Tuple[float, float]) -> None:
    share = cell.share ** 0.5  # so that a few among many are seen
    mixed = tuple(round(white + (colour - white) * share) for white, colour in zip(WHITE, full))
    fill = "#{:02x}{:02x}{:02x}".format(*mixed)
    size = {"width": CELL_WIDTH, "height": CELL_HEIGHT}
    picture.add("rect", x=at[0], y=at[1], **size, fill=fill, stroke="#c5ccd3", stroke_width=0.8)
    middle = at[0] + CELL_WIDTH / 2
    picture.middle((middle, at[1] + 16), cell.large, 12.5, fill=INK, font_weight="bold")
    picture.middle((middle, at[1] + 32), cell.small, 10, fill="#4a5561")
