"""Answers of the built program, against the worked rows of the language and what mathematics says."""
import itertools
import math
import unittest

from arrange import Arrangement, Flat, Limit, Limits, Question, Refusal, ask

LINES = Arrangement.forms(["x1", "x2", "x1 - x2"], 31)
PLANES = Arrangement.forms(["x", "y", "z", "x + y + z"], 31)


def texts(vectors):
    return [f"{it.degree}: {it}" for it in vectors]


class ThreeLines(unittest.TestCase):
    def test_forms_and_point(self):
        self.assertEqual(LINES.hyperplanes(), [(1, 0), (0, 1), (1, 30)])
        self.assertEqual((LINES.point(), LINES.rank()), ((1, 2), 2))

    def test_flats(self):
        self.assertEqual(LINES.flats(), [Flat(0, ()), Flat(1, (1,)), Flat(1, (2,)), Flat(1, (3,)), Flat(2, (1, 2, 3))])
        self.assertEqual((LINES.circuits(), LINES.nbc()), ([(1, 2, 3)], [(), (1,), (2,), (3,), (1, 2), (1, 3)]))

    def test_polynomials(self):
        self.assertEqual(LINES.poincare().coefficients(), [1, 3, 2])
        self.assertEqual(LINES.characteristic().coefficients(), [2, -3, 1])
        triple = LINES.triple(3)
        self.assertEqual([str(it) for it in (triple.whole, triple.deleted, triple.restricted)], ["2*t^2 + 3*t + 1", "t^2 + 2*t + 1", "t + 1"])

    def test_orlik_solomon(self):
        self.assertEqual(LINES.normal("e2*e3").terms, {(1, 2): 30, (1, 3): 1})
        self.assertEqual(LINES.normal("e3*e2 + 2*e1 - 5").terms, {(): 26, (1,): 2, (1, 2): 1, (1, 3): 30})
        self.assertFalse(LINES.normal("e1*e1"))
        self.assertFalse(LINES.normal({(1, 2, 3): 1}))
        self.assertEqual(LINES.aomoto([1, 1, -2]), [0, 1, 1])
        self.assertEqual(LINES.aomoto([10, 10, 11]), [0, 1, 1])
        self.assertEqual((LINES.aomoto([1, 1, 1]), LINES.aomoto([0, 0, 0])), ([0, 0, 0], [1, 3, 2]))

    def test_derivations(self):
        wanted = ["1: (x1, x2)", "2: (0, x1*x2 - x2^2)"]
        self.assertEqual((texts(LINES.gb()), texts(LINES.der())), (wanted, wanted))
        self.assertEqual(texts(LINES.der([2, 1, 1])), ["2: (x1^2, x2^2)", "2: (0, x1*x2 - x2^2)"])

    def test_limits(self):
        with self.assertRaises(Limit) as met:
            LINES.der(limits=Limits(pairs=0))
        self.assertEqual(met.exception.kind, "pairs")
        with self.assertRaises(Limit) as met:
            LINES.gb(limits=Limits(degree=1))
        self.assertEqual(met.exception.kind, "degree")
        self.assertEqual(len(LINES.der(limits=Limits(pairs=1))), 2)

    def test_free(self):
        free = LINES.free()
        self.assertEqual((free.exponents, free.point, free.inverse), ((1, 2), (1, 2), ((1, 1), (0, 15))))
        self.assertEqual(LINES.free([2, 1, 1]).inverse, ((1, 2), (0, 15)))
        fifth = LINES.over(5).free([5, 5, 5])
        self.assertEqual((texts(fifth.basis), fifth.inverse), (["5: (x1^5, x2^5)", "10: (0, x1^5*x2^5 - x2^10)"], ((1, 1), (0, 2))))
        self.assertTrue(free.is_certified() and fifth.is_certified())

    def test_resolve(self):
        self.assertEqual(LINES.resolve().betti(), {(0, 1): 1, (0, 2): 1})


class FourPlanes(unittest.TestCase):
    def test_derivations(self):
        wanted = ["1: (x, y, z)", "2: (0, x*y + y^2, y*z)", "2: (0, 0, x*z + y*z + z^2)", "2: (0, y*z, -y*z)"]
        self.assertEqual(texts(PLANES.der()), wanted)

    def test_free(self):
        self.assertEqual((PLANES.free().is_free, PLANES.free().generators), (False, 4))

    def test_resolve(self):
        resolution = PLANES.resolve()
        self.assertEqual(resolution.betti(), {(0, 1): 1, (0, 2): 3, (1, 3): 1})
        (relation,) = resolution.maps[1].rows
        unit = relation.entries[1].coefficient(0, 0, 1)
        self.assertEqual([it.terms for it in relation.entries], [
            {}, {(0, 0, 1): unit}, {(0, 1, 0): -unit % 31}, {(1, 0, 0): -unit % 31, (0, 1, 0): -unit % 31},
        ])


class Families(unittest.TestCase):
    def test_exponents(self):
        """Reflection arrangements are free, with the coexponents of their groups, and pi is the product of 1 + b t."""
        for A, exponents in (
            (Arrangement.type_a(3, 101), (0, 1, 2, 3)), (Arrangement.type_b(3, 101), (1, 3, 5)), (Arrangement.type_d(3, 101), (1, 2, 3)),
            (Arrangement.boolean(4, 101), (1, 1, 1, 1)),
        ):
            free = A.free()
            self.assertEqual(free.exponents, exponents)
            self.assertTrue(free.is_certified())
            for t in range(10):
                self.assertEqual(A.poincare()(t), math.prod(1 + b * t for b in exponents))

    def test_flats_of_a_braid_arrangement(self):
        """The flats are the partitions of four points."""
        self.assertEqual([len(Arrangement.type_a(n - 1).flats()) for n in (1, 2, 3, 4, 5)], [1, 2, 5, 15, 52])

    def test_restrictions(self):
        self.assertEqual(Arrangement.type_a(2, 31).restrict(1).hyperplanes(), [(1, 30)])
        self.assertEqual(len(Arrangement.type_b(3).restrict(1)), 4)
        self.assertEqual(Arrangement.cone(["x", "x - 1"], 31).hyperplanes(), [(1, 0), (1, 30), (0, 1)])
        self.assertEqual(Arrangement.cone(["x", "x - 1"], 31).delete(2).hyperplanes(), [(1, 0), (0, 1)])

    def test_deletion_and_restriction(self):
        """pi is that of the deletion, and t times that of the restriction."""
        A = Arrangement.graphic(4, [(1, 2), (2, 3), (3, 4), (4, 1), (1, 3)])
        for i, t in itertools.product(range(1, 6), range(4)):
            triple = A.triple(i)
            self.assertEqual(triple.whole(t), triple.deleted(t) + t * triple.restricted(t))
            self.assertEqual((A.delete(i).poincare(), A.restrict(i).poincare()), (triple.deleted, triple.restricted))


class ManyQuestions(unittest.TestCase):
    def test_graphs(self):
        """The nbc sets of a graph are as many as its acyclic orientations, and chi is its chromatic polynomial."""
        pairs = list(itertools.combinations(range(1, 5), 2))
        graphs = [edges for k in range(7) for edges in itertools.combinations(pairs, k)]
        arrangements = [Arrangement.graphic(4, edges, 7) for edges in graphs]
        questions = [made(A) for A in arrangements for made in (Question.characteristic, Question.nbc)]
        values = [it.value for it in ask(questions)]
        self.assertEqual(len(values), 128)
        for edges, chromatic, nbc in zip(graphs, values[::2], values[1::2]):
            for colours in range(4):
                proper = sum(all(c[a - 1] != c[b - 1] for a, b in edges) for c in itertools.product(range(colours), repeat=4))
                self.assertEqual(chromatic(colours), proper)
            self.assertEqual(len(nbc), chromatic(-1))

    def test_mixed(self):
        """Refusals and limits among the answers, over two fields."""
        restricted = Arrangement.boolean(3, 31).restrict(1)
        many = Arrangement.forms([[pow(t, k, 32003) for k in range(8)] for t in range(1, 31)])
        questions = [
            Question.rank(LINES), Question.flats(many), Question.rank(restricted.delete(3)), Question.aomoto(restricted, [1]),
            Question.circuits(many), Question.point(LINES), Question.nbc(many), Question.rank(many),
        ]
        values = [it.value for it in ask(questions)]
        limits = [Limit("flats", "flats A1"), Limit("circuits", "circuits A1"), Limit("nbc", "nbc A1")]
        self.assertEqual([values[k] for k in (1, 4, 6)], limits)
        self.assertEqual([values[k] for k in (0, 5, 7)], [2, (1, 2), 8])
        self.assertEqual((values[2].words, values[2].command), ("bad index 3", "let A4 = delete A3 3"))
        self.assertEqual((values[3].words, values[3].command), ("bad list", "aomoto A2 [1]"))
        self.assertIsInstance(values[3], Refusal)

    def test_text(self):
        (answer,) = ask([Question.der(PLANES)])
        self.assertTrue(answer.text.startswith("der A1: 4\n1: (1*x1, 1*x2, 1*x3)\n"))

    def test_more_than_one_script(self):
        A = Arrangement.boolean(1, 31)
        questions = [Question.normal(A, "1" + "+1" * k) for k in range(0, 1500)]
        self.assertEqual([it.value.terms.get((), 0) for it in ask(questions)], [(k + 1) % 31 for k in range(1500)])


if __name__ == "__main__":
    unittest.main()
