"""Answers of freeness checked by the package: right ones hold, and each damaged one is refused."""
import dataclasses
import unittest

from arrange import Arrangement, BadInput, Certificate, Freeness, GradedVector, Ring, faults_of_cofactor, read_answers
from tests.test_printed import LINES as PRINTED

LINES = Arrangement.forms("x, y, x - y", 31)
X, Y, Z = Ring(31, ("x", "y", "z")).generators()
ZERO = X.ring.number(0)


def printed_freeness():
    """That of three lines, as it was worked by hand."""
    answers = read_answers(PRINTED.splitlines(keepends=True), 31, ("x", "y"))
    return next(it.value for it in answers if it.word == "free")


def power_sums(size):
    """The basis of type B: the sums of x_i^(2 k + 1) d_i."""
    variables = (X, Y, Z)[:size]
    return [GradedVector(2 * k + 1, tuple(it ** (2 * k + 1) for it in variables)) for k in range(size)]


def cofactors(rows):
    """The matrix of the cofactors of a square matrix of polynomials, transposed: their product is the determinant."""
    size = len(rows)

    def minor(i, j):
        return [row[:j] + row[j + 1:] for k, row in enumerate(rows) if k != i]

    return [[determinant(minor(j, i), rows[0][0].ring) * (-1) ** (i + j) for j in range(size)] for i in range(size)]


def determinant(rows, ring):
    if not rows:
        return ring.number(1)
    parts = (it * (-1) ** j * determinant([row[:j] + row[j + 1:] for row in rows[1:]], ring) for j, it in enumerate(rows[0]))
    return sum(parts, ring.number(0))


class ByValues(unittest.TestCase):
    """Freeness by a point and an inverse, on forms that need no program."""

    def faults(self, freeness, arrangement=LINES, multiplicities=(1, 1, 1)):
        from arrange.verification import faults_of_freeness

        forms = [arrangement.ring.form(it) for it in arrangement.build.residues(arrangement.field)]
        return faults_of_freeness(forms, multiplicities, freeness, arrangement.field.prime)

    def test_right(self):
        self.assertEqual(self.faults(printed_freeness()), [])

    def test_each_digit(self):
        """Each coefficient, each coordinate and each entry of the inverse, changed by one: nothing of it is passed over."""
        right = printed_freeness()
        for k, member in enumerate(right.basis):
            for j, entry in enumerate(member.entries):
                for exponents in entry.terms:
                    changed = entry + entry.ring.polynomial({exponents: 1})
                    entries = (*member.entries[:j], changed, *member.entries[j + 1:])
                    basis = (*right.basis[:k], dataclasses.replace(member, entries=entries), *right.basis[k + 1:])
                    self.assertTrue(self.faults(dataclasses.replace(right, basis=basis)))
        for k in range(2):
            point = tuple(it + (j == k) for j, it in enumerate(right.point))
            self.assertTrue(self.faults(dataclasses.replace(right, point=point)))
            for j in range(2):
                inverse = tuple(tuple(it + ((r, c) == (k, j)) for c, it in enumerate(row)) for r, row in enumerate(right.inverse))
                self.assertTrue(self.faults(dataclasses.replace(right, inverse=inverse)))

    def test_words(self):
        right = printed_freeness()
        euler, second = right.basis
        twice = dataclasses.replace(right, basis=(euler, euler))
        self.assertIn("the degrees have the sum 2, and the multiplicities 3", self.faults(twice))
        self.assertIn("member 1 is not homogeneous of degree 2", self.faults(dataclasses.replace(right, basis=(dataclasses.replace(euler, degree=2), second)))[0])
        self.assertIn("it has 1 members, and 2 are wanted", self.faults(dataclasses.replace(right, basis=(euler,)))[0])
        self.assertEqual(self.faults(dataclasses.replace(right, point=(1, 1))), ["the point lies on hyperplane 3", "the matrix is not the inverse of the values of the basis at the point"])
        self.assertEqual(self.faults(right, multiplicities=(2, 1, 1))[0], "member 1 makes of form 1, x, what is not divisible by its power 2")
        self.assertEqual(self.faults(Freeness(False, 4)), ["it has no basis"])

    def test_other_forms(self):
        self.assertTrue(self.faults(printed_freeness(), Arrangement.forms("x, y, x + y", 31)))


class ByCofactors(unittest.TestCase):
    """Certificates made by hand: a basis whose determinant is the product of the forms, and its cofactor matrix."""

    def check(self, forms, multiplicities, basis, scale=1):
        cofactor = [[it * pow(scale, -1, 31) for it in row] for row in cofactors([it.entries for it in basis])]
        self.assertEqual(faults_of_cofactor(forms, multiplicities, basis, cofactor), [])
        for i, j in ((i, j) for i in range(len(basis)) for j in range(len(basis))):
            entry = cofactor[i][j]
            for exponents in list(entry.terms) or [(0,) * len(entry.ring.variables)]:
                changed = [list(row) for row in cofactor]
                changed[i][j] = entry + entry.ring.polynomial({exponents: 1})
                self.assertTrue(faults_of_cofactor(forms, multiplicities, basis, changed))
            for exponents in basis[i].entries[j].terms:
                entries = list(basis[i].entries)
                entries[j] = entries[j] + entry.ring.polynomial({exponents: 1})
                damaged = [*basis[:i], GradedVector(basis[i].degree, tuple(entries)), *basis[i + 1:]]
                self.assertTrue(faults_of_cofactor(forms, multiplicities, damaged, cofactor))

    def test_boolean(self):
        unit = [GradedVector(1, (X, ZERO, ZERO)), GradedVector(1, (ZERO, Y, ZERO)), GradedVector(1, (ZERO, ZERO, Z))]
        self.check([X, Y, Z], [1, 1, 1], unit)

    def test_boolean_with_multiplicities(self):
        powers = [GradedVector(2, (X ** 2, ZERO, ZERO)), GradedVector(0, (ZERO, ZERO + 1, ZERO)), GradedVector(3, (ZERO, ZERO, Z ** 3))]
        self.check([X, Y, Z], [2, 0, 3], powers)

    def test_three_lines(self):
        x, y = LINES.ring.generators()
        self.check([x, y, x - y], [1, 1, 1], [GradedVector(1, (x, y)), GradedVector(2, (x.ring.number(0), x * y - y ** 2))])

    def test_type_b(self):
        """Vandermonde's determinant: that of the odd powers is the product of the coordinates and of (x_j^2 - x_i^2)."""
        x, y = LINES.ring.generators()
        plane = [GradedVector(1, (x, y)), GradedVector(3, (x ** 3, y ** 3))]
        self.check([x, y, x - y, x + y], [1] * 4, plane, -1)
        forms = [X, Y, Z, X - Y, X + Y, X - Z, X + Z, Y - Z, Y + Z]
        self.check(forms, [1] * 9, power_sums(3), -1)

    def test_what_is_no_basis(self):
        """Members with a cofactor matrix whose degrees have too great a sum, so that they generate too little."""
        x, y = LINES.ring.generators()
        zero, one = x.ring.number(0), x.ring.number(1)
        small = [GradedVector(2, (x * y, zero)), GradedVector(2, (zero, x * y))]
        self.assertEqual(faults_of_cofactor([x, y], [1, 1], small, [[one, zero], [zero, one]]), ["the degrees have the sum 4, and the multiplicities 2"])

    def test_shapes(self):
        x, y = LINES.ring.generators()
        basis = [GradedVector(1, (x, y)), GradedVector(2, (x.ring.number(0), x * y - y ** 2))]
        self.assertIn("the cofactor matrix has not 2 rows", faults_of_cofactor([x, y, x - y], [1] * 3, basis, [[x, y]])[0])


class Asked(unittest.TestCase):
    """What the program says of families, over several fields and with multiplicities."""

    def test_families(self):
        for arrangement, multiplicities in (
            (LINES, None), (LINES, [2, 1, 1]), (LINES, 3), (Arrangement.type_b(3, 101), None), (Arrangement.type_a(4, 13), None),
            (Arrangement.type_d(4), None), (LINES.over(5), [5, 5, 5]), (Arrangement.boolean(4, 7), [0, 1, 2, 3]),
            (Arrangement.type_b(4, 101).restrict(3), None), (Arrangement.forms([], 31, 2), None),
        ):
            free = arrangement.free(multiplicities)
            self.assertEqual(arrangement.faults(free, multiplicities), [])
            self.assertTrue(arrangement.verify(free, multiplicities))
            if len(arrangement):
                others = None if multiplicities is None else list(range(2, len(arrangement) + 1))
                self.assertFalse(arrangement.delete(1).verify(free, others))

    def test_certificate(self):
        x, y = LINES.ring.generators()
        zero = x.ring.number(0)
        basis = (GradedVector(1, (x, y)), GradedVector(2, (zero, x * y - y ** 2)))
        right = Certificate(True, 2, basis, ((x * y - y ** 2, -y), (zero, x)))
        self.assertEqual(right.exponents, (1, 2))
        self.assertTrue(LINES.verify(right))
        self.assertFalse(LINES.verify(dataclasses.replace(right, cofactor=((x * y - y ** 2, y), (zero, x)))))

    def test_inputs(self):
        with self.assertRaisesRegex(BadInput, "has no certificate"):
            LINES.verify(Freeness(False, 4))
        with self.assertRaisesRegex(BadInput, "they are 2, and the hyperplanes 3"):
            LINES.verify(printed_freeness(), [1, 1])


if __name__ == "__main__":
    unittest.main()
