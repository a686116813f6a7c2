"""Printed answers: the worked rows of the language, what is cut off, and what is written otherwise than it must be."""
import pathlib
import random
import re
import unittest

from arrange import (
    AnswerCutOff, Flat, Freeness, GradedVector, Limit, Polynomial, PrintedAnswer, ProgramMismatch, Refusal, Resolution,
    ResolutionMap, Ring, read_answers,
)
from tests.printing import printed

EXAMPLES = pathlib.Path(__file__).resolve().parents[3] / "examples"

# Three lines in the plane over 31 elements, and four planes in general position, each worked by hand.
LINES = """\
hyperplanes A: 3 in 2
1 0
0 1
1 30
point A: 1 2
rank A: 2
flats A: 5
0: {}
1: {1}
1: {2}
1: {3}
2: {1 2 3}
poincare A: 1 3 2
characteristic A: 2 -3 1
circuits A: 1
{1 2 3}
nbc A: 6
{}
{1}
{2}
{3}
{1 2}
{1 3}
triple A:
whole: 1 3 2
deleted: 1 2 1
restricted: 1 1
normal A: 26 + 2*e1 + 1*e1*e2 + 30*e1*e3
aomoto A: 0 1 1
gb A: 2
1: (1*x1, 1*x2)
2: (0, 1*x1*x2 + 30*x2^2)
free A: yes
1: (1*x1, 1*x2)
2: (0, 1*x1*x2 + 30*x2^2)
point: 1 2
inverse:
1 1
0 15
resolve A: 1
betti 0: 0 1 1
1: (1*x1, 1*x2)
2: (0, 1*x1*x2 + 30*x2^2)
free A: limit pairs
flats V: limit flats
"""
PLANES = """\
poincare G: 1 4 6 3
free G: no 4
resolve G: 2
betti 0: 0 1 3
1: (1*x1, 1*x2, 1*x3)
2: (0, 1*x1*x2 + 1*x2^2, 1*x2*x3)
2: (0, 0, 1*x1*x3 + 1*x2*x3 + 1*x3^2)
2: (0, 1*x2*x3, 30*x2*x3)
betti 1: 0 0 0 1
3: (0, 1*x3, 30*x2, 30*x1 + 30*x2)
"""
EMPTY = """\
flats E: 1
0: {}
poincare E: 1
free E: yes
0: (1, 0)
0: (0, 1)
point: 0 0
inverse:
1 0
0 1
refused line 4: bad list
"""


# Of the same three lines and four planes, and of the braid arrangement on four strings.
CHAINS = """\
certify A: yes
1: (1*x1, 1*x2)
2: (0, 1*x1*x2 + 30*x2^2)
cofactor:
(1*x1*x2 + 30*x2^2, 30*x2)
(0, 1*x1)
hilbert A: 0 1 3 5 7
super A: yes
0: {}
1: {1}
2: {1 2 3}
exponents: 1 2
ziegler A: 1 in 1
1: 2
free: yes
2: (1*x1^2)
point: 1
inverse:
1
certify G: none 4
super G: no
ziegler G: 3 in 2
1 0: 1
0 1: 1
1 1: 1
free: yes
1: (1*x1, 1*x2)
2: (0, 1*x1*x2 + 1*x2^2)
point: 1 1
inverse:
1 15
0 16
super W: yes
0: {}
1: {1}
2: {1 2 4}
3: {1 2 3 4 5 6}
exponents: 1 2 3
super E: yes
0: {}
exponents:
ziegler P: limit multiplicity
super V: limit chain
certify V: limit pairs
hilbert V: limit degree
"""


def read(text):
    return list(read_answers(text.splitlines(keepends=True), 31))


def value(text):
    (answer,) = read(text)
    return answer.value


class Worked(unittest.TestCase):
    def test_values(self):
        by_word = {it.word: it.value for it in read(LINES)[:13]}
        self.assertEqual(by_word["hyperplanes"], [(1, 0), (0, 1), (1, 30)])
        self.assertEqual(by_word["point"], (1, 2))
        self.assertEqual(by_word["rank"], 2)
        self.assertEqual(by_word["flats"], [Flat(0, ()), Flat(1, (1,)), Flat(1, (2,)), Flat(1, (3,)), Flat(2, (1, 2, 3))])
        self.assertEqual(by_word["poincare"].coefficients(), [1, 3, 2])
        self.assertEqual(by_word["characteristic"].coefficients(), [2, -3, 1])
        self.assertEqual(by_word["circuits"], [(1, 2, 3)])
        self.assertEqual(by_word["nbc"], [(), (1,), (2,), (3,), (1, 2), (1, 3)])
        triple = by_word["triple"]
        self.assertEqual([it.coefficients() for it in (triple.whole, triple.deleted, triple.restricted)], [[1, 3, 2], [1, 2, 1], [1, 1]])
        self.assertEqual(by_word["normal"].terms, {(): 26, (1,): 2, (1, 2): 1, (1, 3): 30})
        self.assertEqual(by_word["aomoto"], [0, 1, 1])
        self.assertEqual([it.degree for it in by_word["gb"]], [1, 2])
        self.assertEqual(by_word["gb"][1].entries[1].terms, {(1, 1): 1, (0, 2): 30})

    def test_freeness(self):
        freeness = read(LINES)[12].value
        self.assertTrue(freeness)
        self.assertEqual((freeness.generators, freeness.exponents, freeness.point), (2, (1, 2), (1, 2)))
        self.assertEqual(freeness.inverse, ((1, 1), (0, 15)))
        self.assertEqual(freeness.values(), ((1, 2), (0, 29)))
        self.assertTrue(freeness.is_certified())
        not_free = read(PLANES)[1].value
        self.assertFalse(not_free)
        self.assertEqual((not_free.generators, not_free.exponents, not_free.basis, not_free.values()), (4, None, None, None))
        self.assertFalse(not_free.is_certified())
        wrong = value("free A: yes\n1: (1*x1, 1*x2)\n2: (0, 1*x1*x2 + 30*x2^2)\npoint: 1 2\ninverse:\n1 1\n0 16\n")
        self.assertFalse(wrong.is_certified())

    def test_resolution(self):
        resolution = read(PLANES)[2].value
        self.assertEqual(resolution.betti(), {(0, 1): 1, (0, 2): 3, (1, 3): 1})
        self.assertEqual((resolution.projective_dimension(), resolution.regularity()), (1, 2))
        self.assertEqual(resolution.betti_table(), "       0 1\ntotal: 4 1\n    1: 1 .\n    2: 3 1")
        relation = resolution.maps[1].rows[0]
        self.assertEqual((relation.degree, len(relation.entries)), (3, 4))
        self.assertEqual(str(relation), "(0, x3, -x2, -x1 - x2)")
        zero = [0, 0, 0]
        for k in range(3):
            for factor, row in zip(relation.entries, resolution.maps[0].rows):
                zero[k] += factor(3, 5, 11) * row.entries[k](3, 5, 11)
        self.assertEqual([it % 31 for it in zero], [0, 0, 0])

    def test_chains(self):
        certificate, dimensions, chain, restriction, none, no, other = [it.value for it in read(CHAINS)[:7]]
        self.assertEqual((certificate.exponents, [str(it) for it in certificate.cofactor[0]]), ((1, 2), ["x1*x2 - x2^2", "-x2"]))
        self.assertEqual(dimensions, [0, 1, 3, 5, 7])
        self.assertEqual((chain.flats[2], chain.exponents), (Flat(2, (1, 2, 3)), (1, 2)))
        self.assertEqual((restriction.forms, restriction.multiplicities, restriction.freeness.exponents), (((1,),), (2,), (2,)))
        self.assertEqual((bool(none), none.generators, none.exponents, bool(no)), (False, 4, None, False))
        self.assertTrue(other.freeness.is_certified())
        self.assertEqual(value("hyperplanes B: 2 in 1 affine\n1 0\n1 30\n"), [(1, 0), (1, 30)])

    def test_limits_and_refusals(self):
        *_, pairs, flats = read(LINES)
        self.assertEqual((pairs.value, flats.value), (Limit("pairs", "free A"), Limit("flats", "flats V")))
        self.assertEqual(pairs.value.words, "limit pairs")
        *_, refusal = read(EMPTY)
        self.assertEqual((refusal.word, refusal.value, refusal.text), ("", Refusal(4, "bad list"), "refused line 4: bad list\n"))

    def test_names(self):
        (answer,) = read_answers(["der A: 1\n", "1: (1*x1, 30*x2)\n"], 31, ["a", "b"])
        self.assertEqual(str(answer.value[0]), "(a, -b)")

    def test_without_a_prime(self):
        (answer,) = read_answers(["der A: 1\n", "1: (1*x1, 30*x2)\n"])
        self.assertEqual(str(answer.value[0]), "(x1, 30*x2)")


class Whole(unittest.TestCase):
    """What is read and written again is the same text."""

    def check(self, text, prime):
        answers = list(read_answers(text.splitlines(keepends=True), prime))
        self.assertEqual("".join(it.text for it in answers), text)
        self.assertEqual("".join(map(printed, answers)), text)

    def test_worked(self):
        for text in (LINES, PLANES, EMPTY, CHAINS):
            self.check(text, 31)

    def test_examples(self):
        outputs = sorted(EXAMPLES.glob("*/*.out"))
        self.assertTrue(outputs)
        for output in outputs:
            prime = re.search(r"^\s*field\s+0*([0-9]+)", output.with_suffix(".arr").read_text(), re.M)
            with self.subTest(output.name):
                self.check(output.read_text(), prime and int(prime[1]))


class Drawn(unittest.TestCase):
    """Values drawn by chance from a fixed seed, written and read again."""

    def setUp(self):
        self.chance = random.Random(11)

    def polynomial(self, ring, degree):
        """A polynomial of this degree, homogeneous, with one term at least."""
        terms = {}
        while not terms or self.chance.random() < 0.6:
            exponents = [0] * len(ring.variables)
            for _ in range(degree):
                exponents[self.chance.randrange(len(exponents))] += 1
            terms[tuple(exponents)] = self.chance.randrange(1, ring.prime)
        return Polynomial(ring, terms)

    def vector(self, ring, degree, width):
        zero = Polynomial(ring, {})
        entries = [self.polynomial(ring, degree) if self.chance.random() < 0.7 else zero for _ in range(width)]
        entries[self.chance.randrange(width)] = self.polynomial(ring, degree)
        return GradedVector(degree, tuple(entries))

    def resolution(self, ring):
        maps, width = [], len(ring.variables)
        for k in range(self.chance.randrange(1, 5)):
            degrees = sorted(self.chance.randrange(k, k + 4) for _ in range(self.chance.randrange(1, 6)))
            rows = tuple(self.vector(ring, degree, width) for degree in degrees)
            maps.append(ResolutionMap(tuple(degrees.count(d) for d in range(degrees[-1] + 1)), rows))
            width = len(rows)
        return Resolution(tuple(maps))

    def freeness(self, ring):
        size = len(ring.variables)
        basis = tuple(self.vector(ring, self.chance.randrange(5), size) for _ in range(size))
        point, *inverse = (tuple(self.chance.randrange(ring.prime) for _ in range(size)) for _ in range(size + 1))
        return Freeness(True, size, basis, point, tuple(inverse))

    def test_again(self):
        for k in range(100):
            ring = Ring(31, tuple(f"x{i}" for i in range(1, self.chance.randrange(1, 11) + 1)))
            word, drawn = ("resolve", self.resolution(ring)) if k % 2 else ("free", self.freeness(ring))
            text = printed(PrintedAnswer(word, "A", drawn, ""))
            self.assertEqual(value(text), drawn)


class CutOff(unittest.TestCase):
    """A text that is cut off anywhere gives the answers before, and then says that it is cut off."""

    def test_every_place(self):
        for text in (LINES, PLANES, EMPTY, CHAINS):
            answers = read(text)
            ends = [0]
            for answer in answers:
                ends.append(ends[-1] + len(answer.text))
            for k in range(len(text)):
                with self.subTest(text=text[:k]):
                    got = []
                    reading = read_answers(text[:k].splitlines(keepends=True), 31)
                    try:
                        for answer in reading:
                            got.append(answer)
                    except AnswerCutOff:
                        self.assertNotIn(k, ends)
                    else:
                        self.assertIn(k, ends)
                    self.assertEqual(got, answers[: len(got)])
                    self.assertEqual(len(got), sum(end <= k for end in ends) - 1)


class Misprinted(unittest.TestCase):
    WRONG = [
        "point A: 1 31\n", "point A: 1  2\n", "point A: 1 2 \n", "point A: 01 2\n", "point A: -1 2\n", "point A:\n", "point A 1\n",
        "point A: x\n", "Point A: 1\n", "point 3: 1\n", "rank A: 2\r\n", "rank A: -1\n", "rank A: 1 2\n", "rank A: limit flats\n",
        "poincare A: 1 -0\n", "poincare A: 1 02\n", "poincare A: \n", "poincare A: limit pairs\n", "points A: 1\n", "\n",
        "flats A: 1\n0: {2 1}\n", "flats A: 1\n0: {1 1}\n", "flats A: 1\n0: {0}\n", "flats A: 1\n0 {1}\n", "flats A: 1\n0: 1\n",
        "circuits A: 1\n{1,2}\n", "circuits A: 1\n{1 2\n", "nbc A: 1\n{ 1}\n", "hyperplanes A: 1 in 2\n1\n", "hyperplanes A: 1\n1\n",
        "hyperplanes A: 1 in 2\n1 0 0\n", "triple A: 1\nwhole: 1\ndeleted: 1\nrestricted: 1\n",
        "triple A:\nwhole: 1\nrestricted: 1\ndeleted: 1\n", "normal A: 0*e1\n", "normal A: e1\n", "normal A: 1*e2*e1\n",
        "normal A: 1*e1 + 2*e1\n", "normal A: 1*e1 - 1*e2\n", "normal A: 1*f1\n", "normal A: 1*e01\n", "normal A: 31\n", "normal A: 0 + 1\n",
        "der A: 1\n1: (1*x1, 1*x3)\n", "der A: 1\n2: (1*x1, 1*x2)\n", "der A: 1\n1: (x1, 1*x2)\n", "der A: 1\n1: (1*x1^1, 0)\n",
        "der A: 1\n2: (1*x2*x1, 0)\n", "der A: 1\n2: (1*x2^2 + 1*x1*x2, 0)\n", "der A: 1\n1: (1*x1 + 1*x1, 0)\n", "der A: 1\n1: (1*x1,0)\n", "der A: 1\n1: (1*x01, 0)\n", "der A: 1\n1: (1*x10, 0)\n",
        "der A: 1\n1: [1*x1, 0]\n", "der A: 1\n1: (0*x1, 0)\n", "der A: 2\n1: (1*x1, 0)\n1: (1*x1)\n",
        "resolve A: 0\n", "resolve A: 1\nbetti 1: 0 1\n1: (1*x1)\n", "resolve A: 1\nbetti 0: 1\n1: (1*x1)\n",
        "resolve A: 2\nbetti 0: 0 1\n1: (1*x1)\nbetti 1: 0 1\n1: (0, 1)\n", "free A: maybe\n", "free A: no\n", "free A: no x\n",
        "free A: yes\n1: (1*x1)\npoint: 1\ninverse: 1\n", "free A: yes\n1: (1*x1)\npoint: 1 1\ninverse:\n1\n",
        "free A: yes\n1: (1*x1)\npoint: 1\ninverse:\n1 0\n", "free A: limit flats\n", "refused line 01: no field\n",
        "refused line 2: no field\nrank A: 1\n", "certify A: no 4\n", "certify A: yes\n1: (1*x1)\ncofactors:\n(1)\n",
        "certify A: yes\n1: (1*x1)\ncofactor:\n(1, 0)\n", "certify A: yes\n1: (1*x1)\ncofactor:\n1\n", "hilbert A: 0 x\n", "super A: none\n",
        "super A: yes\n0: {}\n2: {1}\nexponents: 1\n", "super A: yes\n0: {}\n1: {1}\nexponents: 2\n", "super A: yes\nexponents:\n",
        "ziegler A: 1\n1: 2\nfree: no 4\n", "ziegler A: 1 in 1\n1\nfree: no 4\n", "ziegler A: 1 in 1\n1 0: 2\nfree: no 4\n", "ziegler A: 1 in 1\n1: 2\nfree no 4\n",
        "super A: limit flats\n", "ziegler A: limit flats\n", "hyperplanes A: 1 in 1 affine\n1\n", "hyperplanes A: 1 in 2 Affine\n1 0 1\n",
    ]

    def test_each(self):
        for text in self.WRONG:
            with self.subTest(text=text), self.assertRaises(ProgramMismatch):
                read(text)


class Texts(unittest.TestCase):
    def test_zero(self):
        self.assertEqual(value("normal A: 0\n").terms, {})
        self.assertEqual(str(value("normal A: 0\n")), "0")

    def test_signs(self):
        (vector,) = value("der A: 1\n1: (15*x1 + 16*x2, 30)\n")
        self.assertEqual(str(vector), "(15*x1 - 15*x2, -1)")
        self.assertIsInstance(vector.entries[0], Polynomial)


if __name__ == "__main__":
    unittest.main()
