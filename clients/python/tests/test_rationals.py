"""What an arrangement over a prime field says of one over the rationals, on cases that are known."""
import unittest
from fractions import Fraction
from unittest import mock

from arrange import Arrangement, BadInput, Freeness, OverRationals, over_rationals
from arrange.rationals import rank_over_rationals, rational_rows
from tests.test_inputs import FIELD

# x, y, z and a plane that goes through the line x = y = 0 exactly modulo 31.
BENT = Arrangement.forms(["x", "y", "z", "x + y + 31*z"], FIELD)


class Rows(unittest.TestCase):
    def test_ranks(self):
        rows = [[1, 2, 3], [2, 4, 6], [0, Fraction(1, 2), 1], [1, Fraction(5, 2), 4]]
        self.assertEqual([rank_over_rationals(rows[:k]) for k in range(5)], [0, 1, 1, 2, 2])

    def test_forms(self):
        """The rational forms have the residues of the program's forms, in its order."""
        B3 = Arrangement.type_b(3, FIELD)
        halves = Arrangement.forms("x/2 + y, y, x - 3*z", FIELD)
        for arrangement in (
            B3, Arrangement.type_a(3, FIELD), Arrangement.type_d(3, FIELD), Arrangement.boolean(2, FIELD), halves,
            Arrangement.cone("x, x - 1", FIELD), Arrangement.graphic(4, "1-2 4-3", FIELD), B3.delete(4), B3.restrict(2),
            halves.restrict(1), B3.restrict(5).restrict(1), B3.delete([1, 2]).restrict(3),
        ):
            residues = [tuple(FIELD.residue(it) for it in row) for row in rational_rows(arrangement.build)]
            self.assertEqual(residues, arrangement.hyperplanes())

    def test_residues(self):
        with self.assertRaisesRegex(BadInput, "of characteristic 31, and not rational"):
            rational_rows(Arrangement.type_a(2, FIELD).restrict(1).essentialization().build)


class Reduction(unittest.TestCase):
    def test_good(self):
        for arrangement in (Arrangement.type_b(3, 101), Arrangement.type_a(3, 7), BENT.over(101), Arrangement.type_b(3, 31).restrict(2)):
            self.assertTrue(arrangement.has_good_reduction())

    def test_bad(self):
        """A determinant is 31, or 5; and a restriction has fewer hyperplanes than over the rationals."""
        self.assertFalse(BENT.has_good_reduction())
        five = Arrangement.forms([[1, 0, 0], [0, 1, 0], [1, 2, 5]], 5)
        self.assertEqual((five.has_good_reduction(), five.over(7).has_good_reduction()), (False, True))
        self.assertFalse(BENT.restrict(1).has_good_reduction())

    def test_choice(self):
        self.assertEqual(over_rationals(BENT).prime, 32003)
        self.assertEqual(over_rationals(BENT, [31, 13]).prime, 13)
        wide = Arrangement.forms(["x", "y", "x + 32003*y", "x + 251*y"], FIELD)
        self.assertEqual(over_rationals(wide).prime, 101)
        with self.assertRaisesRegex(BadInput, "at 31 the matroid is another one"):
            over_rationals(BENT, [31])
        with self.assertRaisesRegex(BadInput, "none was given"):
            over_rationals(BENT, [])


class Freely(unittest.TestCase):
    def test_free(self):
        """Free at a prime of good reduction: over the rationals, with the same exponents."""
        freeness = over_rationals(Arrangement.type_b(3, 101)).freeness()
        self.assertEqual((freeness.is_free, freeness.exponents), (True, (1, 3, 5)))
        self.assertEqual(str(freeness), "free over the rationals with exponents (1, 3, 5): it is free at 32003, where it has good reduction")

    def test_not_free(self):
        """Four planes in general position; at 31, of bad reduction, they are free, and that says nothing."""
        self.assertTrue(BENT.free())
        freeness = over_rationals(BENT).freeness()
        self.assertEqual((freeness.is_free, freeness.exponents), (False, None))
        self.assertIn("the factor t^2 - 3*t + 3 of its characteristic polynomial", freeness.why)

    def test_not_decided(self):
        """Not free at a prime, with a characteristic polynomial that has integer roots alone: that decides nothing."""
        lines = OverRationals(Arrangement.type_a(2))
        with mock.patch.object(Arrangement, "free", lambda self: Freeness(False, 4)):
            freeness = lines.freeness()
        self.assertIsNone(freeness.is_free)
        self.assertIn("perhaps free over the rationals: it is not free at 32003, and that decides nothing", str(freeness))


if __name__ == "__main__":
    unittest.main()
