"""The text that people and systems read."""
import unittest

from arrange import GradedVector, Polynomial, Ring, matrix_text, polynomial_in_t

RING = Ring(31, ("x1", "x2"))
SQUARE = Polynomial(RING, {(2, 0): 1, (1, 1): 29, (0, 2): 1})
VECTORS = [GradedVector(1, (Polynomial(RING, {(1, 0): 1}), Polynomial(RING, {(0, 1): 1}))), GradedVector(2, (Polynomial(RING, {}), SQUARE))]


class Polynomials(unittest.TestCase):
    def test_systems(self):
        self.assertEqual(str(SQUARE), "x1^2 - 2*x1*x2 + x2^2")
        self.assertEqual(SQUARE.latex(), "x_{1}^{2} - 2 x_{1} x_{2} + x_{2}^{2}")
        self.assertEqual(SQUARE.macaulay2(), "x_1^2 - 2*x_1*x_2 + x_2^2")
        self.assertEqual(SQUARE.singular(), "x(1)^2 - 2*x(1)*x(2) + x(2)^2")
        self.assertEqual(SQUARE.sage(), "x1^2 - 2*x1*x2 + x2^2")
        self.assertEqual(repr(SQUARE), "Polynomial('x1^2 - 2*x1*x2 + x2^2')")

    def test_constants_and_signs(self):
        for terms, text in (({}, "0"), ({(0, 0): 1}, "1"), ({(0, 0): 30}, "-1"), ({(1, 0): 30, (0, 0): 16}, "-x1 - 15"), ({(0, 0): 15}, "15")):
            self.assertEqual(str(Polynomial(RING, terms)), text)

    def test_order(self):
        """Grevlex: y^2 is above x z, and x y above y^2."""
        ring = Ring(None, ("x", "y", "z"))
        self.assertEqual(str(Polynomial(ring, {(1, 0, 1): 1, (0, 2, 0): 1, (1, 1, 0): 1, (0, 0, 0): 5, (2, 0, 0): 1})), "x^2 + x*y + y^2 + x*z + 5")

    def test_names(self):
        names = Ring(7, ("x_1", "y", "a2b"))
        polynomial = Polynomial(names, {(1, 1, 1): 1})
        self.assertEqual((str(polynomial), polynomial.macaulay2(), polynomial.singular()), ("x_1*y*a2b", "x_1*y*a2b", "x(1)*y*a2b"))

    def test_values(self):
        self.assertEqual((SQUARE(5, 3), SQUARE(3, 5), SQUARE.degree()), (4, 4, 2))
        self.assertEqual(polynomial_in_t([1, 3, 2])(-1), 0)
        self.assertEqual((polynomial_in_t([]).coefficients(), polynomial_in_t([0, 5]).coefficients()), ([0], [0, 5]))
        self.assertFalse(polynomial_in_t([0, 0]))

    def test_keys(self):
        again = Polynomial(RING, {(0, 2): 1, (1, 1): 29, (2, 0): 1})
        self.assertEqual((SQUARE, hash(SQUARE)), (again, hash(again)))
        self.assertNotEqual(SQUARE, Polynomial(Ring(101, ("x1", "x2")), SQUARE.terms))


class Vectors(unittest.TestCase):
    def test_systems(self):
        self.assertEqual(str(VECTORS[1]), "(0, x1^2 - 2*x1*x2 + x2^2)")
        self.assertEqual(VECTORS[0].macaulay2(), "{x_1, x_2}")
        self.assertEqual(VECTORS[0].singular(), "[x(1), x(2)]")
        self.assertEqual(VECTORS[0].latex(), r"\begin{pmatrix} x_{1} & x_{2} \end{pmatrix}")

    def test_matrices(self):
        self.assertEqual(matrix_text(VECTORS, "macaulay2"), "matrix {{x_1, 0}, {x_2, x_1^2 - 2*x_1*x_2 + x_2^2}}")
        self.assertEqual(matrix_text(VECTORS, "singular"), "[x(1), x(2)], [0, x(1)^2 - 2*x(1)*x(2) + x(2)^2]")
        self.assertEqual(matrix_text(VECTORS, "sage"), "matrix([[x1, x2], [0, x1^2 - 2*x1*x2 + x2^2]])")
        self.assertEqual(matrix_text(VECTORS[:1], "latex"), r"\begin{pmatrix} x_{1} & x_{2} \end{pmatrix}")


if __name__ == "__main__":
    unittest.main()
