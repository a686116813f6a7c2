"""What notebooks show: tables as HTML, and pictures where the package arrange_draw is beside this one."""
from __future__ import annotations

import html
from importlib import import_module
from typing import Any, Iterable, Optional, Sequence

from .errors import ArrangeError

MOST_FLATS = 500  # a lattice of more flats is not drawn unasked


def table(head: Sequence[object], rows: Iterable[Sequence[object]]) -> str:
    """A table as HTML, with the first column as its heads.

    >>> table(["", 0], [["total", 2]])
    '<table><tr><th></th><th>0</th></tr><tr><th>total</th><td>2</td></tr></table>'
    """
    lines = ["".join(f"<th>{html.escape(str(it))}</th>" for it in head)]
    for first, *others in rows:
        cells = "".join(f"<td>{html.escape(str(it))}</td>" for it in others)
        lines.append(f"<th>{html.escape(str(first))}</th>{cells}")
    return "<table>" + "".join(f"<tr>{line}</tr>" for line in lines) + "</table>"


def picture(kind: str, *given: Any) -> Optional[str]:
    """A picture of arrange_draw as SVG, or None where there is no such package, or nothing of that kind to be drawn."""
    try:
        text: str = getattr(import_module("arrange_draw"), kind)(*given).text()
    except (ImportError, ArrangeError):
        return None
    return text
