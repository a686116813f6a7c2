"""Objects of Sage and networkx, as stand-ins that can what these can; and of networkx itself where it is installed."""
import importlib.util
import unittest
from fractions import Fraction

from arrange import Arrangement, BadInput, Field
from tests.test_inputs import Bad, line

FIELD = Field(31)


class Integer:
    """An integer of Sage: numerator and denominator are asked for by a call."""

    def __init__(self, value):
        self.value = value

    def __index__(self):
        return self.value

    def numerator(self):
        return self

    def denominator(self):
        return Integer(1)

    def __repr__(self):
        return str(self.value)


class Rational:
    def __init__(self, above, below):
        self.above, self.below = above, below

    def numerator(self):
        return Integer(self.above)

    def denominator(self):
        return Integer(self.below)


class Parent:
    def __init__(self, characteristic, names=()):
        self._characteristic, self._names = characteristic, names

    def characteristic(self):
        return Integer(self._characteristic)

    def variable_names(self):
        return self._names


class Residue:
    def __init__(self, value, prime):
        self.value, self.prime = value, prime

    def lift(self):
        return Integer(self.value)

    def parent(self):
        return Parent(self.prime)

    def __repr__(self):
        return str(self.value)


class Irrational:
    """An element of a number field: neither an integer nor a fraction."""

    def __repr__(self):
        return "sqrt2"


class Hyperplane:
    """a_1 x_1 + .. + b = 0, as `A()` and `b()`."""

    def __init__(self, normal, constant=0):
        self._normal, self._constant = normal, constant

    def A(self):
        return tuple(self._normal)

    def b(self):
        return self._constant


class SageArrangement:
    def __init__(self, hyperplanes, names, characteristic=0):
        self._hyperplanes, self._names, self._characteristic = hyperplanes, names, characteristic

    def hyperplanes(self):
        return tuple(self._hyperplanes)

    def parent(self):
        return Parent(self._characteristic, self._names)

    def base_ring(self):
        return Parent(self._characteristic)


class SagePolynomial:
    def __init__(self, text, ring):
        self.text, self._ring = text, ring

    def parent(self):
        return self._ring

    def monomials(self):
        return []

    def __str__(self):
        return self.text


class Module:
    """The parent of a vector, which like all parents can be asked for names and here has none."""

    def characteristic(self):
        return 0

    def variable_names(self):
        raise ValueError("variable names have not yet been set")


class SageVector:
    def __init__(self, numbers):
        self._numbers = numbers

    def parent(self):
        return Module()

    def __iter__(self):
        return iter(self._numbers)


class SageGraph:
    def __init__(self, vertices, edges):
        self._vertices, self._edges = vertices, edges

    def vertices(self, sort=False):
        return sorted(self._vertices) if sort else list(self._vertices)

    def vertex_iterator(self):
        return iter(self._vertices)

    def edge_iterator(self, labels=True):
        return iter([(a, b, None) for a, b in self._edges] if labels else self._edges)


class Graph:
    """A graph of networkx, whose views are asked without a call; those of a multigraph have keys."""

    def __init__(self, nodes, edges):
        self.nodes, self.edges = nodes, edges


class Sage(Bad):
    def test_numbers(self):
        self.assertEqual(Field(Integer(31)), FIELD)
        self.assertEqual([FIELD.residue(it) for it in (Integer(-1), Rational(1, 2), Residue(30, 31))], [30, 16, 30])
        self.bad("number", "of characteristic 7, and not 31", FIELD.residue, Residue(3, 7))
        self.bad("number", "no integer and no fraction", FIELD.residue, Irrational())
        self.bad("number", "no residue", FIELD.residue, Rational(1, 62))

    def test_rows(self):
        A = Arrangement.forms([[Integer(1), Rational(-1, 2)]], FIELD)
        self.assertEqual(line(A), "forms 2 [1 15]")
        self.assertEqual(line(Arrangement.forms([SageVector([Integer(1), Integer(-1)])], FIELD)), "forms 2 [1 30]")
        self.assertEqual(line(Arrangement.forms(iter([iter([1, 2]), range(3, 5)]), FIELD)), "forms 2 [1 2, 3 4]")
        self.bad("forms", "characteristic 7", Arrangement.forms, [iter([Residue(1, 7)])], FIELD)
        over = Arrangement.forms([[Residue(30, 31), Residue(0, 31)]], FIELD)
        self.assertEqual(line(over), "forms 2 [30 0]")
        self.bad("forms", "characteristic 31, and not over the field with 7", over.over, 7)
        self.bad("forms", "characteristic 7, and not over the field with 31", Arrangement.forms, [[Residue(1, 7)]], FIELD)
        self.bad("form 1, coefficient 2", "characteristic 7, and others of 31", Arrangement.forms, [[Residue(1, 31), Residue(1, 7)]], FIELD)
        self.assertEqual(Arrangement.type_a(Integer(3), Integer(31)), Arrangement.type_a(3, 31))

    def test_arrangements(self):
        A = SageArrangement([Hyperplane([Integer(0), Integer(1)]), Hyperplane([Rational(1, 2), Integer(-1)])], ("u", "v"))
        self.assertEqual(line(Arrangement.from_sage(A, FIELD)), "forms 2 [0 1, 16 30]")
        self.assertEqual(Arrangement.from_sage(A, FIELD).variables, ("u", "v"))
        finite = SageArrangement([Hyperplane([Residue(30, 31)])], ("x",), 31)
        self.assertEqual(line(Arrangement.from_sage(finite, FIELD)), "forms 1 [30]")
        self.bad("forms", "characteristic 31", Arrangement.from_sage, finite, 7)
        affine = SageArrangement([Hyperplane([1, 0]), Hyperplane([1, 0], 5)], ("x", "y"))
        self.bad("hyperplane 2", "does not pass through the origin", Arrangement.from_sage, affine, FIELD)
        root = SageArrangement([Hyperplane([1, Irrational()])], ("x", "y"))
        self.bad("hyperplane 1, coefficient 2", "sqrt2 is no integer", Arrangement.from_sage, root, FIELD)
        self.bad("arrangement", "no hyperplane arrangement of Sage", Arrangement.from_sage, [[1, 0]], FIELD)

    def test_polynomials(self):
        ring = Parent(0, ("x", "y"))
        A = Arrangement.forms([SagePolynomial("y", ring), SagePolynomial("-1/2*x + y", ring)], FIELD)
        self.assertEqual((line(A), A.variables), ("forms 2 [0 1, 15 1]", ("x", "y")))
        finite = Parent(31, ("x",))
        self.assertEqual(line(Arrangement.forms([SagePolynomial("30*x", finite)], FIELD)), "forms 1 [30]")
        self.bad("forms", "characteristic 31", Arrangement.forms, [SagePolynomial("30*x", finite)], 7)
        other = Parent(0, ("x", "z"))
        self.bad("form 2", "lies in another ring than form 1", Arrangement.forms, [SagePolynomial("x", ring), SagePolynomial("x", other)], FIELD)
        self.bad("form 2", "lies in another ring", Arrangement.forms, [SagePolynomial("x", ring), "x"], FIELD)
        self.bad("form 1, column 2", "no sign there", Arrangement.forms, [SagePolynomial("x^2", ring)], FIELD)
        self.bad("form 1", "has the constant", Arrangement.forms, [SagePolynomial("x + 1", ring)], FIELD)
        self.assertEqual(line(Arrangement.cone([SagePolynomial("x - y + 1", ring)], FIELD)), "cone 2 [1 30 1]")
        self.bad("form 1, column 2", "no sign there", Arrangement.forms, [SagePolynomial("a*x", ring)], FIELD)

    def test_graphs(self):
        graph = SageGraph([3, 1, 2], [(1, 3), (3, 2)])
        self.assertEqual(line(Arrangement.from_graph(graph, FIELD)), "graphic 3 [1-3 3-2]")
        self.bad("edge 1", "loop", Arrangement.from_graph, SageGraph([1], [(1, 1)]), FIELD)


class Networkx(Bad):
    def test_graphs(self):
        self.assertEqual(line(Arrangement.from_graph(Graph(["a", "b", "c"], [("a", "c"), ("c", "b")]), FIELD)), "graphic 3 [1-3 3-2]")
        self.assertEqual(line(Arrangement.from_graph(Graph(["a", "b"], [("a", "b", 0)]), FIELD)), "graphic 2 [1-2]")
        self.bad("edge 2", "joins what edge 1 joins", Arrangement.from_graph, Graph(["a", "b"], [("a", "b", 0), ("a", "b", 1)]), FIELD)
        self.bad("dimension", "11 is not", Arrangement.from_graph, Graph(list("abcdefghijk"), []), FIELD)
        self.bad("graph", "list is no graph", Arrangement.from_graph, [(1, 2)], FIELD)

    @unittest.skipUnless(importlib.util.find_spec("networkx"), "networkx is not installed")
    def test_networkx_itself(self):
        import networkx

        self.assertEqual(line(Arrangement.from_graph(networkx.cycle_graph(4), FIELD)), "graphic 4 [1-2 1-4 2-3 3-4]")
        self.bad("edge 1", "loop", Arrangement.from_graph, networkx.Graph([("a", "a")]), FIELD)


class Matrix:
    """A matrix of Sage, over whose rows one goes."""

    def __init__(self, rows):
        self._rows = rows

    def parent(self):
        return Module()

    def __iter__(self):
        return iter(map(SageVector, self._rows))


class FiniteField(Parent):
    """GF(q) of Sage."""

    def __init__(self, characteristic, order):
        super().__init__(characteristic)
        self._order = order

    def order(self):
        return Integer(self._order)

    def __repr__(self):
        return f"GF({self._order})"


Integer.__eq__ = lambda self, other: self.value == int(other)
Integer.__int__ = Integer.__index__


class Fields(Bad):
    def test_sage(self):
        A = Arrangement.forms(Matrix([[Integer(1), Integer(0)], [Integer(1), Integer(-1)]]), FiniteField(31, 31))
        self.assertEqual((line(A), A.field), ("forms 2 [1 0, 1 30]", FIELD))
        self.bad("field", "GF(25) has not as many elements as its characteristic 5", Arrangement.type_a, 2, FiniteField(5, 25))
        self.bad("field", "11 is none of", Arrangement.type_a, 2, FiniteField(11, 11))


@unittest.skipUnless(importlib.util.find_spec("sympy"), "sympy is not installed")
class Sympy(Bad):
    def setUp(self):
        import sympy

        self.sympy = sympy
        self.x, self.y = sympy.symbols("x y")

    def test_forms(self):
        x, y = self.x, self.y
        A = Arrangement.forms([x, y, (x - y) / 2], self.sympy.GF(31))
        self.assertEqual((line(A), A.variables), ("forms 2 [1 0, 0 1, 16 15]", ("x", "y")))
        self.assertEqual(Arrangement.forms([x, y], 31, variables=[y, x]).variables, ("y", "x"))
        numbered = self.sympy.symbols("x1:11")
        self.assertEqual(Arrangement.forms(numbered, 31).variables, tuple(f"x{k}" for k in range(1, 11)))
        self.assertEqual(line(Arrangement.cone([x, x - 1, 2 * (x + y) - 2 * x], FIELD)), "cone 2 [1 0 0, 1 0 30, 0 2 0]")
        self.bad("form 1", "its term in x*y", Arrangement.forms, [x * y + x], FIELD)
        self.bad("form 2", "its term in x**2", Arrangement.forms, [x, x ** 2], FIELD)
        self.bad("form 1", "its term in sqrt(2)*x", Arrangement.forms, [self.sympy.sqrt(2) * x], FIELD)
        self.bad("form 1", "has the constant 1", Arrangement.forms, [x + 1], FIELD)
        self.bad("form 2", "no expression of sympy", Arrangement.forms, [x, "y"], FIELD)
        self.bad("form 1", "its term in y", Arrangement.forms, [x + y], FIELD, "x")

    def test_matrices(self):
        half = self.sympy.Rational(1, 2)
        self.assertEqual(line(Arrangement.forms(self.sympy.Matrix([[1, 0], [half, -1]]), FIELD)), "forms 2 [1 0, 16 30]")
        self.bad("form 1, coefficient 2", "no integer and no fraction", Arrangement.forms, self.sympy.Matrix([[1, self.x]]), FIELD)
        self.bad("form 1, coefficient 1", "no integer and no fraction", Arrangement.forms, self.sympy.Matrix([[0.5, 1]]), FIELD)


class Numbers(unittest.TestCase):
    @unittest.skipUnless(importlib.util.find_spec("numpy"), "numpy is not installed")
    def test_numpy(self):
        import numpy

        self.assertEqual(line(Arrangement.forms(numpy.array([[1, -1]]), FIELD)), "forms 2 [1 30]")
        with self.assertRaises(BadInput):
            Arrangement.forms(numpy.array([[0.5, 1]]), FIELD)

    def test_fractions(self):
        self.assertEqual(FIELD.residue(Fraction(-3, 2)), FIELD.residue("-3/2"))


if __name__ == "__main__":
    unittest.main()
