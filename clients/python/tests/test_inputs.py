"""What is said before the program is asked, with the place; and the scripts that lawful input makes."""
import unittest
from fractions import Fraction
from unittest import mock

from arrange import Arrangement, BadInput, Field, Limits, Program, Question, Ring, ask
from arrange.questions import MOST_BYTES, Script

FIELD = Field(31)


def line(arrangement):
    """The line behind `let A1 =`."""
    return arrangement.build.line(arrangement.field, str)


class Bad(unittest.TestCase):
    def bad(self, place, words, make, *arguments, **named):
        with self.assertRaises(BadInput) as caught:
            make(*arguments, **named)
        self.assertEqual(caught.exception.place, place)
        self.assertIn(words, caught.exception.words)


class Fields(Bad):
    def test_primes(self):
        for prime in (0, 1, 2, 3, 11, 30, -31, 32004):
            self.bad("field", f"{prime} is none of", Field, prime)
        for thing in ("31", 31.0, None, [31]):
            self.bad("field", "no integer", Field, thing)
        self.bad("field", "none of", Arrangement.type_a, 3, 11)

    def test_residues(self):
        self.assertEqual([FIELD.residue(it) for it in (0, 31, -1, Fraction(1, 2), "1/2", "-3", 10**30)], [0, 0, 30, 16, 16, 28, 10**30 % 31])
        self.bad("number", "1/31 has no residue at 31", FIELD.residue, Fraction(1, 31))
        self.bad("number", "no fraction", FIELD.residue, 0.5)
        self.bad("number", "no fraction", FIELD.residue, "one")
        self.bad("number", "no fraction", FIELD.residue, "1/0")
        self.bad("number", "no fraction", FIELD.residue, None)


class TypedForms(Bad):
    def test_lines(self):
        for forms, variables, wanted in (
            (["x", "y", "x - y"], None, "forms 2 [1 0, 0 1, 1 30]"), (["x1 - 2*x2"], None, "forms 2 [1 29]"),
            (["y", "x"], None, "forms 2 [0 1, 1 0]"), (["y", "x"], "y x", "forms 2 [1 0, 0 1]"), (["x3"], None, "forms 3 [0 0 1]"),
            (["x10 - x2"], "x2, x10", "forms 2 [30 1]"), (["-x+2y"], ["x", "y"], "forms 2 [30 2]"), (["1/2*x - y/3"], None, "forms 2 [16 10]"),
            (["x + x - 3*x + y"], None, "forms 2 [30 1]"), ([" 2 * x - 3 / 2 y "], None, "forms 2 [2 14]"), (["x_1 + x_2"], None, "forms 2 [1 1]"),
            (["x1"], 3, "forms 3 [1 0 0]"), ([], 3, "forms 3 []"), (["a - b1"], None, "forms 2 [1 30]"),
        ):
            with self.subTest(forms=forms):
                self.assertEqual(line(Arrangement.forms(forms, FIELD, variables)), wanted)

    def test_no_forms(self):
        for form, place, words in (
            ("x + q", "form 2, column 5", "no variable q among x, y"), ("x y", "form 2, column 3", "no sign there"), ("x*y", "form 2, column 2", "no sign there"),
            ("x^2", "form 2, column 2", "no sign there"), ("", "form 2, column 1", "no term there"), ("x -", "form 2, column 4", "no term there"), ("2*", "form 2, column 2", "no sign there"),
            ("x + + y", "form 2, column 5", "no term there"), ("x - 1", "form 2", "the constant -1; Arrangement.cone"), ("x/0", "form 2, column 1", "division by zero"),
            ("3", "form 2", "the constant 3"), ("(x)", "form 2, column 1", "no term there"), ("x - ü", "form 2, column 5", "no term there"),
        ):
            with self.subTest(form=form):
                self.bad(place, words, Arrangement.forms, ["x", form], FIELD, "x y")

    def test_places_of_variables(self):
        self.bad("variable 2", "x stands there twice", Arrangement.forms, ["x"], FIELD, "x x")
        self.bad("variable 2", "'2' is no name", Arrangement.forms, ["x"], FIELD, ["x", "2"])
        self.bad("variables", "x9999999999 is the name of more than 10", Arrangement.forms, ["x9999999999"])
        self.bad("variables", "no integer", Arrangement.forms, ["x"], FIELD, 2.5)
        self.bad("variables", "has to be given", Arrangement.forms, [], FIELD)
        self.bad("dimension", "0 is not from 1 to 10", Arrangement.forms, [], FIELD, 0)
        self.bad("dimension", "11 is not from 1 to 10", Arrangement.forms, list("abcdefghijk"), FIELD)

    def test_faults_of_forms(self):
        self.bad("form 2", "zero over the field with 31 elements", Arrangement.forms, ["x", "31*x", "2*x"], FIELD)
        self.bad("form 3", "multiple of form 1", Arrangement.forms, ["x - y", "x", "2*y - 2*x"], FIELD)
        self.bad("form 2", "multiple of form 1 over the field with 5 elements", Arrangement.forms, ["x + y", "x - 4*y"], 5)
        self.bad("form 2, coefficient 1", "1/31 has no residue at 31", Arrangement.forms, ["x", "1/31*x + y"], FIELD)
        self.bad("arrangement", "5 hyperplanes are not fewer than the 5 elements", Arrangement.forms, [[1, k] for k in range(5)], 5)
        self.bad("arrangement", "65 hyperplanes are more than 64", Arrangement.forms, [[1, k] for k in range(65)], 101)
        self.assertEqual(len(Arrangement.forms([[1, k] for k in range(64)], 101)), 64)

    def test_rows(self):
        self.assertEqual(line(Arrangement.forms([[1, Fraction(1, 2)], (0, "-1")], FIELD)), "forms 2 [1 16, 0 30]")
        self.bad("form 2", "it has 3 numbers where 2 are wanted", Arrangement.forms, [[1, 0], [1, 0, 0]], FIELD)
        self.bad("form 1, coefficient 2", "0.5 is no integer", Arrangement.forms, [[1, 0.5]], FIELD)
        self.bad("form 1", "no row of numbers", Arrangement.forms, [3], FIELD)
        self.bad("form 2", "is no text, as other forms are", Arrangement.forms, ["x", [1]], FIELD)
        self.bad("dimension", "0 is not", Arrangement.forms, [[]], FIELD)


class Cones(Bad):
    def test_lines(self):
        self.assertEqual(line(Arrangement.cone(["x", "x - 1"], FIELD)), "cone 1 [1 0, 1 30]")
        self.assertEqual(Arrangement.cone(["x", "x - 1"], FIELD).variables, ("x", "h"))
        self.assertEqual(Arrangement.cone(["x1 + 1"], FIELD).variables, ("x1", "x2"))
        self.assertEqual(Arrangement.cone([[1, 0], [1, -1]], FIELD).variables, ("x1", "x2"))
        self.assertEqual(Arrangement.cone(["h - 1"], FIELD).variables, ("h", "h0"))
        self.assertEqual(line(Arrangement.cone([], FIELD, 0)), "cone 0 []")
        self.assertEqual(len(Arrangement.cone(["x", "x - 1"], FIELD)), 3)

    def test_faults(self):
        self.bad("form 2", "it is a multiple of form 1", Arrangement.cone, ["x - 1", "2 - 2*x"], FIELD)
        self.bad("form 2", "the form of the cone's last variable is a multiple of form 1", Arrangement.cone, [[0, 1]], FIELD)
        self.bad("dimension", "11 is not", Arrangement.cone, [[1] * 11], FIELD)


class Affine(Bad):
    def test_lines(self):
        lines = Arrangement.affine("x, x - 1, y + 2*x", FIELD)
        self.assertEqual((line(lines), lines.variables, lines.is_affine), ("affine 2 [1 0 0, 1 0 30, 2 1 0]", ("x", "y"), True))
        self.assertEqual(line(Arrangement.affine([[1, 0], [1, -1]], FIELD)), "affine 1 [1 0, 1 30]")
        self.assertEqual(line(Arrangement.affine([], FIELD, 1)), "affine 1 []")
        self.assertTrue(lines.delete(1).is_affine and lines.restrict(3).is_affine)
        self.assertEqual(line(lines.keep([1, 3])), "affine 2 [1 0 0, 2 1 0]")
        self.assertFalse(Arrangement.cone("x - 1", FIELD).is_affine)
        self.assertEqual(line(lines.over(7)), "affine 2 [1 0 0, 1 0 6, 2 1 0]")

    def test_forms(self):
        """The rows that are printed end in the constants, but where all of these are zero."""
        lines = Arrangement.affine("x, x - 1", FIELD, "x")
        with mock.patch.object(Arrangement, "hyperplanes", lambda self: [(1, 0), (1, 30)]):
            self.assertEqual([str(it) for it in lines], ["x", "x - 1"])
            self.assertTrue(2 * lines[2] in lines and lines[2] + 1 in lines and lines.same_hyperplanes(lines))
            self.assertFalse(lines[2] - 1 in lines or lines[2] ** 2 in lines)
        with mock.patch.object(Arrangement, "hyperplanes", lambda self: [(1,)]):
            self.assertEqual(lines.keep([1]).hyperplane_set(), {(1, 0)})

    def test_faults(self):
        self.bad("form 1", "it is zero", Arrangement.affine, [[0, 0, 1]], FIELD)
        self.bad("form 2", "it is a multiple of form 1", Arrangement.affine, ["x - 1", "2 - 2*x"], FIELD)
        self.bad("form 2", "it has 2 numbers where 3 are wanted", Arrangement.affine, [[1, 0, 0], [1, 0]], FIELD)
        lines = Arrangement.affine("x, x - 1", FIELD)
        for asked in (lines.lattice, lines.essentialization, lines.has_good_reduction, lines.is_formal, lines.inductive_chain):
            self.bad("arrangement", "affine, and this is asked of central ones", asked)
        self.bad("arrangement", "affine", lines.localize, [1])


class Families(Bad):
    def test_lines(self):
        for arrangement, wanted, count, dimension in (
            (Arrangement.type_a(3, FIELD), "typeA 3", 6, 4), (Arrangement.type_b(3, FIELD), "typeB 3", 9, 3), (Arrangement.type_d(4, FIELD), "typeD 4", 12, 4),
            (Arrangement.boolean(2, FIELD), "boolean 2", 2, 2), (Arrangement.type_a(0, FIELD), "typeA 0", 0, 1),
        ):
            self.assertEqual((line(arrangement), len(arrangement), arrangement.dimension), (wanted, count, dimension))

    def test_faults(self):
        self.bad("dimension", "11 is not", Arrangement.type_a, 10)
        self.bad("dimension", "0 is not", Arrangement.type_b, 0)
        self.bad("arrangement", "12 hyperplanes are not fewer than the 7 elements", Arrangement.type_d, 4, 7)
        self.bad("arrangement", "81 hyperplanes are more than 64", Arrangement.type_b, 9)
        self.bad("rank", "no integer", Arrangement.boolean, "2")
        self.assertEqual(len(Arrangement.type_d(8, 101)), 56)
        self.assertEqual(len(Arrangement.type_b(8, 101)), 64)
        self.assertEqual((len(Arrangement.type_a(9, 101)), Arrangement.type_a(9, 101).dimension), (45, 10))


class Graphs(Bad):
    def test_lines(self):
        self.assertEqual(line(Arrangement.graphic(3, [(1, 2), (3, 2)], FIELD)), "graphic 3 [1-2 3-2]")
        self.assertEqual(line(Arrangement.graphic(2, [], FIELD)), "graphic 2 []")

    def test_faults(self):
        self.bad("edge 2", "2-1 joins what edge 1 joins", Arrangement.graphic, 3, [(1, 2), (2, 1)])
        self.bad("edge 1", "2-2 is a loop", Arrangement.graphic, 3, [(2, 2)])
        self.bad("edge 2", "has the end 4", Arrangement.graphic, 3, [(1, 2), (1, 4)])
        self.bad("edge 1", "no pair of vertices", Arrangement.graphic, 3, [(1, 2, 3)])
        self.bad("edge 1", "no pair of vertices", Arrangement.graphic, 3, [5])
        self.bad("edge 1", "no integer", Arrangement.graphic, 3, ["ab"])
        self.bad("dimension", "11 is not", Arrangement.graphic, 11, [])


class Questions(Bad):
    lines = Arrangement.forms(["x", "y", "x - y"], FIELD)

    def test_indices(self):
        self.bad("hyperplane 4", "the hyperplanes are 1 to 3", self.lines.delete, 4)
        self.bad("hyperplane 0", "counted from 1", self.lines.restrict, 0)
        self.bad("hyperplane 3", "the hyperplanes are 1 to 2", self.lines.delete(1).delete, 3)
        self.bad("hyperplane 4", "the hyperplanes are 1 to 3", Question.triple, self.lines, 4)
        self.bad("hyperplane", "no integer", self.lines.delete, "1")
        self.bad("hyperplane 1", "there is none", Arrangement.forms([], FIELD, 2).delete, 1)
        self.bad("dimension", "dimension 1 has no restriction", Question.triple, Arrangement.forms(["x"], FIELD), 1)
        self.bad("dimension", "0 is not", Arrangement.forms(["x"], FIELD).restrict, 1)

    def test_lists(self):
        self.assertEqual(str(Question.free(self.lines)), "free A")
        self.assertEqual(str(Question.free(Arrangement.graphic(2, [], FIELD), [])), "free A []")
        self.assertEqual(str(Question.free(self.lines, [0, 20, 1])), "free A [0 20 1]")
        self.assertEqual(str(Question.aomoto(self.lines, [1, -1, "1/2"])), "aomoto A [1 30 16]")
        self.bad("multiplicity 3", "21 is not from 0 to 20", Question.gb, self.lines, [1, 1, 21])
        self.bad("multiplicity 1", "-1 is not", Question.der, self.lines, [-1, 1, 1])
        self.bad("multiplicities", "they are 2, and the hyperplanes 3", Question.resolve, self.lines, [1, 1])
        self.bad("weights", "they are 4, and the hyperplanes 3", Question.aomoto, self.lines, [1, 1, 1, 1])
        self.bad("weight 2", "no residue", Question.aomoto, self.lines, [1, "1/31", 1])
        self.bad("limit pairs", "1000001 is not", Limits, 1_000_001)
        self.bad("limit degree", "241 is not", Limits, degree=241)
        self.bad("limit degree", "no integer", Limits, degree=2.5)

    def test_numbers(self):
        self.assertEqual(str(Question.hilbert(self.lines, 4)), "hilbert A 4")
        self.assertEqual(str(Question.hilbert(self.lines, 240, 2)), "hilbert A 240 [2 2 2]")
        self.assertEqual([str(it(self.lines)) for it in (Question.certify, Question.super)], ["certify A", "super A"])
        self.assertEqual(str(Question.ziegler(self.lines, 3)), "ziegler A 3")
        self.bad("degree", "241 is not from 0 to 240", Question.hilbert, self.lines, 241)
        self.bad("hyperplane 4", "1 to 3", Question.ziegler, self.lines, 4)
        self.bad("dimension", "dimension 1 has no restriction", Question.ziegler, Arrangement.forms(["x"], FIELD), 1)

    def test_elements(self):
        for element, wanted in (
            ("e2*e3", "e2 * e3"), ("-e1 + 33*e2 - 5", "- e1 + 2 * e2 - 5"), (" 2 ", "2"), ({(3, 2): -1, (): 5}, "30*e3*e2 + 5"), ({}, "0"), ("e01", "e1"),
        ):
            self.assertEqual(str(Question.normal(self.lines, element)), f"normal A {wanted}")
        for element, place, words in (
            ("e4", "element, column 1", "no hyperplane 4"), ("2*e0", "element, column 3", "no hyperplane 0"), ("e1 e2", "element, column 4", "no +, - or *"),
            ("f1", "element, column 1", "no number and no generator"), ("", "element, column 1", "no number"), ("e1 + ", "element, column 5", "no number"), ("e1 +  f1", "element, column 7", "no number"),
            ("2e1", "element, column 1", "no number"), ("+e1", "element, column 1", "no number"), ("e12345678901", "element, column 1", "no number"),
            ({(1, 4): 1}, "hyperplane 4", "1 to 3"), ({(1,): "1/31"}, "term (1,)", "no residue"),
        ):
            with self.subTest(element=element):
                self.bad(place, words, Question.normal, self.lines, element)


class OverFields(Bad):
    def test_over(self):
        halves = Arrangement.forms(["x/2 + y", "y"], FIELD)
        self.assertEqual(line(halves.over(7)), "forms 2 [4 1, 0 1]")
        self.bad("form 1, coefficient 1", "1/7 has no residue at 7", Arrangement.forms(["x/7 + y"], FIELD).over, 7)
        self.bad("form 2", "zero over the field with 7", Arrangement.forms(["x", "7*y"], FIELD).over, 7)
        self.bad("form 2", "zero over the field with 7", Arrangement.forms(["x", "7*y", "x + y"], FIELD).delete(3).over, 7)


class Scripts(unittest.TestCase):
    def test_shared_names(self):
        script = Script(FIELD)
        A = Arrangement.boolean(3, FIELD)
        for question in (Question.rank(A.delete(1)), Question.rank(Arrangement.boolean(3, FIELD)), Question.point(A.delete(1).restrict(2))):
            self.assertTrue(script.take(question))
        self.assertEqual(script.text(), "field 31\nlet A1 = boolean 3\nlet A2 = delete A1 1\nrank A2\nrank A1\nlet A3 = restrict A2 2\npoint A3\n")

    def test_as_long_as_can_be(self):
        script = Script(FIELD)
        A = Arrangement.boolean(1, FIELD)
        while script.take(Question("normal", A, "1" + " + 1" * 5000)):
            pass
        self.assertLessEqual(len(script.text().encode()), MOST_BYTES)
        self.assertGreater(len(script.text().encode()), MOST_BYTES - 20_040)

    def test_too_long(self):
        with self.assertRaises(BadInput):
            list(ask([Question("normal", Arrangement.boolean(1, FIELD), "1" * MOST_BYTES)], Program("/no/program")))


class Shown(unittest.TestCase):
    def test_arrangements(self):
        A = Arrangement.forms(["x", "y", "x - y"], FIELD)
        self.assertEqual(str(A.delete(1)), "2 hyperplanes in x, y over field 31: delete (forms 2 [1 0, 0 1, 1 30]) 1")
        self.assertEqual(str(A.restrict(2)), "a restriction in x1 over field 31: restrict (forms 2 [1 0, 0 1, 1 30]) 2")
        self.assertTrue(Arrangement.forms([], FIELD, 1))
        self.assertEqual(A, Arrangement.forms(["x", "y", "x - y"], 31))
        self.assertEqual(len({A, A.over(31), A.over(7)}), 2)

    def test_rings(self):
        self.assertEqual(Ring(None, ("t",)).macaulay2(), "ZZ[t]")
        self.assertEqual(Ring(None, ("t",)).sage(), "PolynomialRing(ZZ, ['t'])")
        self.assertEqual(Ring(7, ("x", "y_2")).latex(), r"\mathbb{F}_{7}[x, y_{2}]")


if __name__ == "__main__":
    unittest.main()
