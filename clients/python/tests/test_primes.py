"""One arrangement at several primes, side by side."""
import unittest
import warnings

from arrange import Arrangement, BadInput, Limit, MatroidDiffers, Question, Refusal, compare_primes
from arrange.primes import Matroid, _differences, _groups

PENCIL = Arrangement.forms(["x", "y", "x + y", "x + 6*y"], 31)


def compared(*arguments):
    with warnings.catch_warnings(record=True) as caught:
        warnings.simplefilter("always")
        comparison = compare_primes(*arguments)
    return comparison, [str(it.message) for it in caught if it.category is MatroidDiffers]


class Same(unittest.TestCase):
    def test_answers(self):
        comparison, said = compared(Arrangement.type_a(3), [7, 31, 101], ["rank", "poincare", lambda A: Question.aomoto(A, [1] * 6)])
        self.assertEqual(said, [])
        self.assertTrue(comparison.is_same())
        self.assertEqual(comparison.groups, ((7, 31, 101),))
        self.assertEqual([comparison.answers[p]["rank"] for p in (7, 31, 101)], [3, 3, 3])
        self.assertEqual({str(comparison.answers[p]["poincare"]) for p in (7, 31, 101)}, {"6*t^3 + 11*t^2 + 6*t + 1"})
        self.assertEqual(list(comparison.answers[7]), ["rank", "poincare", "aomoto"])

    def test_other_answers(self):
        """One matroid at all primes, and the weights sum to zero at 5 alone: resonance there and nowhere else."""
        comparison, said = compared(Arrangement.boolean(1), [5, 7], [lambda A: Question.aomoto(A, [5])])
        self.assertEqual(said, [])
        self.assertEqual([comparison.answers[p]["aomoto"] for p in (5, 7)], [[1, 1], [0, 0]])


class Differs(unittest.TestCase):
    def test_flats(self):
        """z, y + z and 7x + y are independent but at 7, where x drops out."""
        A = Arrangement.forms(["x", "z", "y + z", "7*x + y"], 31)
        comparison, said = compared(A, [7, 31, 101], ["rank"])
        self.assertEqual(comparison.groups, ((31, 101), (7,)))
        self.assertEqual(said, ["the flats differ: {2 3} is one at 31 and not at 7"])
        self.assertEqual(comparison.warnings, tuple(said))
        self.assertFalse(comparison.is_same())
        self.assertEqual(comparison.answers[7]["rank"], 3)
        self.assertIn("warning: the flats differ", str(comparison))

    def test_no_arrangement(self):
        comparison, said = compared(PENCIL, [5, 7], ["rank"])
        self.assertIsInstance(comparison.faults[5], BadInput)
        self.assertEqual(said, ["there is no such arrangement at 5: form 4: it is a multiple of form 3 over the field with 5 elements"])
        self.assertEqual(list(comparison.answers), [7])

    def test_few_elements(self):
        """Six lines over five elements may well be; it is the program that takes no such."""
        six = Arrangement.forms("x, y, z, x + y, x + z, y + z", 31)
        comparison, said = compared(six, [5, 7], ["rank"])
        self.assertEqual(said, ["the program takes no such arrangement at 5: arrangement: 6 hyperplanes are not fewer than the 5 elements of the field"])
        self.assertEqual(comparison.groups, ((7,),))
        self.assertIn("<tr><th>7</th><td>3</td></tr>", comparison._repr_html_())
        self.assertIn("<p>the program takes no such arrangement at 5", comparison._repr_html_())

    def test_number_of_hyperplanes(self):
        """Restricted to x, the forms y and y + 7z come together at 7."""
        A = Arrangement.forms(["x", "y", "x + y + 7*z"], 31).restrict(1)
        comparison, said = compared(A, [7, 31, 101])
        self.assertEqual(comparison.groups, ((31, 101), (7,)))
        self.assertEqual(said, ["the hyperplanes are 1 at 7 and 2 at 31"])

    def test_refused(self):
        """A deletion of the second hyperplane of that restriction, which is not there at 7."""
        A = Arrangement.forms(["x", "y", "x + y + 7*z"], 31).restrict(1).delete(2)
        comparison, said = compared(A, [7, 31], ["rank"])
        self.assertIsInstance(comparison.faults[7], Refusal)
        self.assertEqual(said, ["there is no such arrangement at 7: line 4, 'let A3 = delete A2 2': refused, bad index 2"])
        self.assertEqual((comparison.groups, comparison.answers), (((31,),), {31: {"rank": 1}}))

    def test_words(self):
        self.assertRaises(BadInput, compare_primes, PENCIL, [7], ["triple"])
        self.assertRaises(BadInput, compare_primes, PENCIL, [7], ["lines"])
        self.assertRaises(BadInput, compare_primes, PENCIL, [11])


class TooMany(unittest.TestCase):
    def test_circuits_in_place_of_flats(self):
        few = Matroid(9, "circuits", frozenset([(1, 2)]))
        other = Matroid(9, "circuits", frozenset([(1, 3)]))
        self.assertEqual(list(_differences({5: few, 7: other, 13: few}, {})), ["the circuits differ: {1 2} is one at 5 and not at 7"])

    def test_too_many(self):
        few, many = Matroid(9, "flats", frozenset([()])), Matroid(9, "flats", None)
        self.assertEqual(_groups({5: few, 7: many, 13: many}), ((7, 13), (5,)))
        said = list(_differences({5: few, 7: many, 13: many}, {}))
        self.assertEqual(said, ["there are too many flats at 7 and not at 5", "the matroids at 7, 13 are not compared: there are too many flats"])

    def test_nothing_is_compared(self):
        many = Arrangement.forms([[pow(t, k) for k in range(8)] for t in range(1, 31)], 32003)
        comparison, said = compared(many, [32003, 251], ["flats"])
        self.assertEqual(said, ["the matroids at 251, 32003 are not compared: there are too many circuits"])
        self.assertIsInstance(comparison.answers[32003]["flats"], Limit)


if __name__ == "__main__":
    unittest.main()
