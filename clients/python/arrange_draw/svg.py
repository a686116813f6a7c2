"""Pictures as SVG, written with the XML library of Python."""
from __future__ import annotations

import textwrap
import xml.etree.ElementTree as tree
from typing import Iterable, List, Tuple

INK = "#1d2733"
PALE = "#8a94a0"
FAINT = "#eef1f4"
WARNING = "#c0392b"
SANS = "DejaVu Sans, Verdana, Helvetica, Arial, sans-serif"
DIGIT = 0.64  # the width of a digit in this font, in units of its size

Point = Tuple[float, float]


def number(value: float) -> str:
    """A coordinate to a hundredth, without zeros at its end.

    >>> number(1.5), number(2.0), number(-0.001)
    ('1.5', '2', '0')
    """
    text = f"{value:.2f}".rstrip("0").rstrip(".")
    return "0" if text == "-0" else text


def wrapped(texts: Iterable[str], width: float, size: float) -> List[str]:
    """The lines of some texts, broken at blanks so that each fits a width in this size."""
    most = max(8, int(width / (size * 0.55)))
    return [line for text in texts for line in textwrap.wrap(text, most)]


class Picture:
    """A picture of a width and a height, to which shapes are added from back to front."""

    def __init__(self, width: float, height: float, title: str) -> None:
        self.width = width
        self.height = height
        self.root = tree.Element("svg", {
            "xmlns": "http://www.w3.org/2000/svg", "viewBox": f"0 0 {number(width)} {number(height)}",
            "width": number(width), "height": number(height), "font-family": SANS, "role": "img",
        })
        tree.SubElement(self.root, "title").text = title
        self.add("rect", x=0, y=0, width=width, height=height, fill="white")

    def add(self, tag: str, text: str = "", /, **attributes: object) -> None:
        """Adds a shape; an underscore in the name of an attribute stands for a hyphen."""
        values = {
            name.rstrip("_").replace("_", "-"): number(value) if isinstance(value, (int, float)) else str(value)
            for name, value in attributes.items()
        }
        shape = tree.SubElement(self.root, tag, values)
        shape.text = text or None

    def words(self, at: Point, text: str, size: float = 13, fill: str = INK, **attributes: object) -> None:
        """A text whose baseline begins at a point, or has its middle there with text_anchor="middle"."""
        self.add("text", text, x=at[0], y=at[1], font_size=size, fill=fill, **attributes)

    def middle(self, at: Point, text: str, size: float = 13, fill: str = INK, **attributes: object) -> None:
        """A text with its middle at a point, in both directions."""
        self.words((at[0], at[1] + 0.36 * size), text, size, fill, text_anchor="middle", **attributes)

    def line(self, one: Point, other: Point, **attributes: object) -> None:
        self.add("line", x1=one[0], y1=one[1], x2=other[0], y2=other[1], **attributes)

    def circle(self, at: Point, radius: float, **attributes: object) -> None:
        self.add("circle", cx=at[0], cy=at[1], r=radius, **attributes)

    def text(self) -> str:
        tree.indent(self.root, " ")
        return tree.tostring(self.root, encoding="unicode") + "\n"
