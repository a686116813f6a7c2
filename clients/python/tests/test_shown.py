"""What notebooks show: LaTeX, tables and pictures; and the readable forms of answers."""
import unittest
import xml.etree.ElementTree as tree
from unittest import mock

from arrange import Arrangement, Flat, ProgramMissing, read_answers
from arrange.shown import picture
from tests.test_printed import LINES as PRINTED, PLANES

LINES = Arrangement.forms("x, y, x - y", 31)
SVG = "{http://www.w3.org/2000/svg}svg"


def printed(text, word, variables):
    return next(it.value for it in read_answers(text.splitlines(keepends=True), 31, variables) if it.word == word)


class Answers(unittest.TestCase):
    def test_freeness(self):
        free = printed(PRINTED, "free", ("x", "y"))
        self.assertEqual((str(free), repr(free)), ("free with exponents 1, 2", "<free with exponents 1, 2>"))
        self.assertEqual(free._repr_latex_(), r"$\text{free with exponents 1, 2}:\quad \begin{pmatrix} x & y \\ 0 & x y - y^{2} \end{pmatrix}$")
        other = printed(PLANES, "free", ("x", "y", "z"))
        self.assertEqual((repr(other), other._repr_latex_()), ("<not free, with 4 generators>", r"$\text{not free, with 4 generators}$"))

    def test_resolution(self):
        resolution = printed(PLANES, "resolve", ("x", "y", "z"))
        self.assertEqual((len(resolution), str(resolution)), (2, "       0 1\ntotal: 4 1\n    1: 1 .\n    2: 3 1"))
        self.assertIn("projective dimension 1 with Betti numbers {(0, 1): 1, (0, 2): 3, (1, 3): 1}", repr(resolution))
        rows = [[cell.text or "" for cell in row] for row in tree.fromstring(resolution._repr_html_())]
        self.assertEqual(rows, [["", "0", "1"], ["total:", "4", "1"], ["1:", "1", "."], ["2:", "3", "1"]])
        self.assertEqual(tree.fromstring(resolution._repr_svg_()).tag, SVG)
        self.assertEqual(repr(resolution.maps[1].rows[0]), "GradedVector('3: (0, z, -y, -x - y)')")

    def test_small(self):
        self.assertEqual(Flat(1, (2, 3))._repr_latex_(), r"$\{2, 3\}$")
        triple = printed(PRINTED, "triple", None)
        self.assertEqual(triple._repr_latex_(), r"$2 t^{2} + 3 t + 1 = (t^{2} + 2 t + 1) + t\,(t + 1)$")


class Asked(unittest.TestCase):
    def test_arrangement(self):
        self.assertEqual(LINES._repr_latex_(), r"$x \, y \, (x - y) \in \mathbb{F}_{31}[x, y]$")
        self.assertIsNone(LINES._repr_svg_())
        self.assertEqual(tree.fromstring(Arrangement.type_b(3, 31)._repr_svg_()).tag, SVG)
        self.assertEqual(Arrangement.forms([], 31, 1)._repr_latex_(), r"$1 \in \mathbb{F}_{31}[x_{1}]$")

    def test_lattice(self):
        lattice = LINES.lattice()
        rows = [[cell.text for cell in row] for row in tree.fromstring(lattice._repr_html_())]
        self.assertEqual(rows, [["rank", "0", "1", "2"], ["flats", "1", "3", "1"], ["Möbius values", "1", "-3", "2"]])
        self.assertEqual(tree.fromstring(lattice._repr_svg_()).tag, SVG)

    def test_without_the_program(self):
        """A notebook shows something even then."""
        with mock.patch.object(Arrangement, "hyperplanes", side_effect=ProgramMissing("no program")):
            self.assertIsNone(Arrangement.type_a(2, 31)._repr_latex_())
        with mock.patch.object(Arrangement, "rank", side_effect=ProgramMissing("no program")):
            self.assertIsNone(Arrangement.type_a(3, 31)._repr_svg_())

    def test_without_pictures(self):
        with mock.patch("arrange.shown.import_module", side_effect=ImportError):
            self.assertIsNone(picture("lattice_picture", LINES.flats(), "A"))


if __name__ == "__main__":
    unittest.main()
