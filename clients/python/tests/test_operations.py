"""Arrangements that are made from others, against what their lattices and polynomials must be."""
import math
import random
import unittest

from arrange import Arrangement, BadInput, Flat, SearchStopped, factored, polynomial_in_t
from arrange.families import (
    cartan_matrix, catalan, gallery, gallery_names, generic, linial, monomial, positive_roots, semiorder, shi, weyl,
)
from tests.test_inputs import Bad, line

B3 = Arrangement.type_b(3, 31)
K4 = Arrangement.type_a(3, 31)
LINES = Arrangement.forms("x, y, x - y", 31)


class Made(Bad):
    def test_localize(self):
        """Those through a flat; what is asked for need not be closed."""
        for flat in B3.flats():
            local = B3.localize(flat)
            self.assertEqual((len(local), local.rank()), (len(flat.hyperplanes), flat.rank))
            self.assertTrue(local.issubset(B3))
        self.assertEqual(len(K4.localize([1, 2])), 3)
        self.assertEqual(len(K4.localize([])), 0)
        self.bad("hyperplane 7", "1 to 6", K4.localize, [1, 7])

    def test_restrict_to(self):
        """The lattice of a restriction is the interval above the flat, so its polynomial is the sum of the values there."""
        for arrangement in (B3, Arrangement.graphic(4, "1-2 2-3 3-4 1-4 1-3", 31)):
            lattice = arrangement.lattice()
            for flat in lattice:
                if flat.rank < arrangement.dimension:
                    restricted = arrangement.restrict_to(flat)
                    self.assertEqual(restricted.dimension, arrangement.dimension - flat.rank)
                    self.assertEqual(len(restricted), len(lattice.upper_covers(flat)))
                    above = [abs(sum(lattice.mobius(flat, it) for it in lattice.of_rank(r))) for r in range(flat.rank, lattice.rank + 1)]
                    self.assertEqual(restricted.poincare().coefficients(), above)
        self.assertEqual(LINES.restrict_to([]), LINES)
        self.bad("dimension", "0 is not", LINES.restrict_to, [1, 2])

    def test_ziegler(self):
        """All hyperplanes but one are counted, each at what it cuts out."""
        for arrangement in (B3, K4, K4.delete(2)):
            for index in range(1, len(arrangement) + 1):
                counts = arrangement.ziegler_multiplicities(index)
                self.assertEqual((len(counts), sum(counts)), (len(arrangement.restrict(index)), len(arrangement) - 1))
                pencils = [it for it in arrangement.flats(rank=2) if index in it.hyperplanes]
                self.assertEqual(sorted(counts), sorted(len(it.hyperplanes) - 1 for it in pencils))

    def test_restriction_with_multiplicities(self):
        """By Ziegler the multirestriction of a free arrangement is free, with its exponents but for a 1."""
        self.assertEqual(B3.restrict(1).free(B3.ziegler_multiplicities(1)).exponents, (3, 5))

    def test_essentialization(self):
        essential = K4.essentialization()
        self.assertEqual((essential.dimension, essential.rank()), (3, 3))
        self.assertEqual(essential.flats(), K4.flats())
        self.assertEqual(essential.free().exponents, (1, 2, 3))
        self.assertEqual(line(K4.restrict(1).essentialization())[:8], "forms 2 ")
        self.assertEqual(B3.essentialization().hyperplanes(), B3.hyperplanes())
        self.bad("dimension", "without hyperplanes", Arrangement.forms([], 31, 2).essentialization)

    def test_product(self):
        both = LINES.product(Arrangement.boolean(2, 31))
        self.assertEqual((both.variables, len(both)), (("x", "y", "x1", "x2"), 5))
        self.assertEqual(both.poincare(), LINES.poincare() * Arrangement.boolean(2, 31).poincare())
        self.assertEqual(both.lattice().components(), [(1, 2, 3), (4,), (5,)])
        self.assertEqual(LINES.product(LINES).variables, ("x1", "x2", "x3", "x4"))
        self.bad("field", "field 7 is another one", LINES.product, LINES.over(7))

    def test_union(self):
        self.assertTrue(Arrangement.type_d(3, 31).union(Arrangement.boolean(3, 31)).same_hyperplanes(B3))
        self.assertTrue(Arrangement.type_d(3, 31).issubset(B3))
        self.assertFalse(B3.issubset(Arrangement.type_d(3, 31)))
        self.assertFalse(B3.same_hyperplanes(B3.over(101)) or B3.same_hyperplanes(K4))
        self.bad("dimension", "4 is another one than 3", B3.union, K4)

    def test_rationals_are_kept(self):
        """What is made of rational forms can be taken over another field; what is cut out at a prime cannot."""
        halves = Arrangement.forms("x/2 + y, y", 31)
        self.assertEqual(line(halves.union(LINES).over(7)), "forms 2 [4 1, 0 1, 1 0, 1 6]")
        self.bad("forms", "of characteristic 31", K4.restrict(1).essentialization().over, 7)

    def test_decone(self):
        """The cone over what an arrangement is off one of its hyperplanes has the same polynomial."""
        for arrangement in (K4, B3, LINES):
            for index in (1, len(arrangement)):
                cone = Arrangement.cone(arrangement.decone(index), arrangement.field, arrangement.dimension - 1)
                self.assertEqual(cone.characteristic(), arrangement.characteristic())
        self.bad("hyperplane 0", "counted from 1", LINES.decone, 0)

    def test_regions(self):
        """Of a reflection arrangement there are as many as the group has elements."""
        for arrangement, order in ((K4, 24), (B3, 48), (Arrangement.boolean(4, 31), 16), (Arrangement.type_a(4, 31), 120)):
            self.assertEqual(arrangement.regions(), order)
        self.assertEqual([it.bounded_regions() for it in (generic(3, 5, 31), Arrangement.boolean(2, 31), LINES)], [3, 0, 1])


class Hands(Bad):
    def test_hyperplanes(self):
        self.assertEqual([str(it) for it in LINES], ["x", "y", "x - y"])
        self.assertEqual((str(LINES[3]), len(LINES.restrict(1)), str(LINES.restrict(1)[1])), ("x - y", 1, "x1"))
        self.assertTrue("2*y - 2*x" in LINES and [5, 0] in LINES and LINES[2] * 3 in LINES)
        self.assertFalse("x + y" in LINES or LINES[1] ** 2 in LINES or LINES[1] + 1 in LINES)
        self.bad("hyperplane 0", "counted from 1", LINES.__getitem__, 0)
        self.bad("hyperplane 4", "1 to 3", LINES.__getitem__, 4)

    def test_polynomials(self):
        """The forms of an arrangement make it again; products of them, and forms of another ring, do not."""
        x, y = LINES.ring.generators()
        self.assertEqual(line(Arrangement.forms([x, y, 2 * (x - y)], 31)), "forms 2 [1 0, 0 1, 2 29]")
        self.assertTrue(Arrangement.forms(LINES, 31).same_hyperplanes(LINES))
        self.assertEqual(line(Arrangement.cone([x, y - 1], 31)), "cone 2 [1 0 0, 0 1 30]")
        self.bad("form 2", "x*y is not linear", Arrangement.forms, [x, x * y], 31)
        self.bad("form 2", "lies in another ring", Arrangement.forms, [x, K4.ring.generators()[0]], 31)
        self.bad("form 1", "has the constant", Arrangement.forms, [x + 1], 31)
        self.bad("forms", "characteristic 31", Arrangement.forms, [x], 7)

    def test_several(self):
        self.assertEqual(line(LINES.delete([1, 3])), "forms 2 [0 1]")
        self.assertEqual(line(LINES.keep([3, 1])), "forms 2 [1 0, 1 30]")
        self.assertEqual(K4.delete(K4.flats(rank=2)[0]).hyperplanes(), K4.keep([2, 3, 4, 5]).hyperplanes())
        self.assertEqual(line(Arrangement.graphic(3, "1-2 2-3 1-3", 31).delete([2])), "graphic 3 [1-2 1-3]")
        self.assertEqual(B3.delete([9, 1, 2]).hyperplanes(), B3.hyperplanes()[2:8])
        self.assertEqual([len(it) for it in (B3.delete([]), B3.keep([]))], [9, 0])
        self.bad("hyperplane 4", "1 to 3", LINES.delete, [1, 4])

    def test_one_multiplicity(self):
        self.assertEqual(LINES.free(2), LINES.free([2, 2, 2]))
        self.assertEqual(B3.restrict(1).der(1), B3.restrict(1).der())

    def test_texts(self):
        self.assertEqual(line(Arrangement.forms("x,y , x - y", 31)), line(LINES))
        self.assertEqual(line(Arrangement.forms("x", 31)), "forms 1 [1]")
        self.assertEqual(line(Arrangement.cone("x, x - 1", 31)), "cone 1 [1 0, 1 30]")
        self.bad("form 1, column 1", "no variable xy", Arrangement.forms, "xy", 31, "x y")
        self.bad("weights", "is a text", LINES.aomoto, "111")
        self.bad("multiplicities", "is a text", LINES.free, "111")
        self.bad("edge 1", "no pair", Arrangement.graphic, 3, "12", 31)
        self.bad("edge 2", "no integer", Arrangement.graphic, 3, "1-2 a-b", 31)

    def test_shown(self):
        self.assertEqual(repr(LINES), "<Arrangement: 3 hyperplanes in x, y over field 31: forms 2 [1 0, 0 1, 1 30]>")


class Polynomials(Bad):
    def test_ring(self):
        """Laws of a ring, and division with remainder, on polynomials drawn by chance."""
        chance = random.Random(3)
        ring = LINES.ring

        def drawn():
            return ring.polynomial({(chance.randrange(4), chance.randrange(4)): chance.randrange(31) for _ in range(4)})

        for _ in range(50):
            f, g, h = drawn(), drawn(), drawn()
            self.assertEqual(f * (g + h), f * g + f * h)
            self.assertEqual((f * g) * h, f * (g * h))
            self.assertEqual(f - g, -(g - f))
            self.assertEqual((f * g)(3, 5), f(3, 5) * g(3, 5) % 31)
            self.assertEqual((f * g).derivative(0), f.derivative(0) * g + f * g.derivative(0))
            if g:
                quotient, rest = divmod(f, g)
                self.assertEqual(quotient * g + rest, f)
                self.assertFalse(f * g % g)
        x, y = ring.generators()
        self.assertEqual((x - y) * (x + y) // (x - y), x + y)
        self.assertEqual((3 - x + 1, 2 * x, x ** 0), (-x + 4, x + x, ring.number(1)))
        self.assertFalse(31 * x)

    def test_faults(self):
        x, _ = LINES.ring.generators()
        t = polynomial_in_t([0, 1])
        self.bad("polynomial", "lies in", lambda: x + t)
        self.bad("divisor", "no inverse in the integers", lambda: t // (2 * t))
        self.bad("exponent", "negative", lambda: t ** -1)
        with self.assertRaises(ZeroDivisionError):
            divmod(x, 0)
        with self.assertRaises(TypeError):
            x + "y"

    def test_factors(self):
        """A product of drawn factors is found again, with what has no rational root."""
        chance = random.Random(5)
        for _ in range(50):
            parts = [polynomial_in_t([chance.randrange(-9, 10), 1]) for _ in range(chance.randrange(4))]
            parts += [polynomial_in_t([1, chance.randrange(2, 9)]) for _ in range(chance.randrange(3))]
            rest = polynomial_in_t(chance.choice([[1], [-3], [3, -3, 1], [19, -8, 1]]))
            whole = rest.ring.product(parts) * rest
            factors = factored(whole)
            self.assertEqual(factors.product(), whole)
            self.assertEqual(factors.splits(), rest.degree() == 0)
            self.assertEqual(sum(factors.roots.values()), len(parts))
            self.assertTrue(all(whole.degree() and sum(c * root ** k for k, c in enumerate(whole.coefficients())) == 0 for root in factors.roots))
        self.assertEqual(str(factored(polynomial_in_t([]))), "0")
        self.bad("polynomial", "in one variable", factored, LINES[1])
        self.assertEqual(str(K4.factored_poincare()), "(t + 1)*(2*t + 1)*(3*t + 1)")
        self.assertEqual(K4.factored_poincare().latex(), "(t + 1) (2 t + 1) (3 t + 1)")


class Chains(unittest.TestCase):
    def test_inductively_free(self):
        """Supersolvable arrangements are, with their exponents; each step is one of the addition theorem."""
        for arrangement, exponents in ((B3, (1, 3, 5)), (K4, (1, 2, 3)), (Arrangement.type_d(4, 31), (1, 3, 3, 5)), (Arrangement.boolean(3, 31), (1, 1, 1))):
            chain = arrangement.inductive_chain()
            self.assertEqual(chain[-1].exponents, exponents)
            kept = []
            for step in chain:
                kept.append(step.hyperplane)
                self.assertEqual(sum(step.exponents), len(kept))
                self.assertEqual(len(step.exponents), len(step.restricted) + 1)
                part = arrangement.keep(kept)
                restricted = part.restrict(sorted(kept).index(step.hyperplane) + 1)
                self.assertEqual(sum(step.restricted), len(restricted))
            self.assertEqual(sorted(kept), list(range(1, len(arrangement) + 1)))

    def test_exponents_of_steps(self):
        """What each step says is what the program says of the arrangement and of its restriction."""
        chain = B3.inductive_chain()
        kept = []
        for step in chain[:6]:
            kept.append(step.hyperplane)
            part = B3.keep(kept)
            self.assertEqual(tuple(it for it in part.free().exponents if it), step.exponents)
            restricted = part.restrict(sorted(kept).index(step.hyperplane) + 1)
            self.assertEqual(tuple(it for it in restricted.free().exponents if it), step.restricted)

    def test_not_inductively_free(self):
        """The nine lines of G(3,3,3) are free with exponents 1, 4, 4, and each has four points on it: none can be left out."""
        nine = monomial(3, 3, 3, 31)
        self.assertEqual(nine.free().exponents, (1, 4, 4))
        self.assertIsNone(nine.inductive_chain())
        self.assertIsNone(nine.free_chain())
        self.assertTrue(monomial(3, 1, 3, 31).is_inductively_free())
        self.assertFalse(generic(3, 4, 31).is_inductively_free())
        self.assertIsNone(generic(3, 4, 31).free_chain())
        with self.assertRaises(SearchStopped):
            B3.inductive_chain(most=2)

    def test_free_chain(self):
        chain = K4.free_chain()
        self.assertEqual((sorted(it for it, _ in chain), chain[-1][1]), ([1, 2, 3, 4, 5, 6], (1, 2, 3)))
        for k, (_, exponents) in enumerate(chain, 1):
            part = K4.keep([it for it, _ in chain[:k]])
            self.assertEqual(tuple(it for it in part.free().exponents if it), exponents)


class Algebra(unittest.TestCase):
    def test_ideal(self):
        """Each generator is zero in the algebra, and there is one for each circuit."""
        generators = K4.orlik_solomon_generators()
        self.assertEqual(len(generators), len(K4.circuits()))
        for it in generators:
            self.assertFalse(K4.normal(it.terms))

    def test_formal(self):
        """Free arrangements are formal, by Yuzvinsky; more general planes than variables are not; independent ones are."""
        for arrangement in (K4, B3, Arrangement.boolean(3, 31), monomial(3, 3, 3, 31), LINES):
            self.assertTrue(arrangement.is_formal())
        for arrangement in (generic(3, 4, 31), generic(3, 6, 31), generic(4, 6, 31)):
            self.assertFalse(arrangement.is_formal())

    def test_resonance(self):
        """A pencil of k hyperplanes has a local component of dimension k - 1, on which the first cohomology has k - 2."""
        self.assertEqual([(it.dimension, it.depth) for it in K4.local_resonance()], [(2, 1)] * 4)
        pencil = Arrangement.forms([[1, k] for k in range(5)], 31)
        self.assertEqual([(it.dimension, it.depth) for it in pencil.local_resonance()], [(4, 3)])
        self.assertEqual(generic(3, 5, 31).local_resonance(), [])


class Families(Bad):
    def test_deformations(self):
        """The characteristic polynomials that are known: Shi's, Catalan's; and regions of semiorders and alternating trees."""
        t = polynomial_in_t([0, 1])
        for n in (2, 3):
            self.assertEqual(shi(n).characteristic(), t * (t - 1) * (t - n) ** (n - 1))
            self.assertEqual(catalan(n).characteristic(), t * (t - 1) * math.prod((t - k for k in range(n + 1, 2 * n)), start=t.ring.number(1)))
        self.assertEqual([linial(n).regions() // 2 for n in (1, 2, 3, 4)], [1, 2, 7, 36])
        self.assertEqual([semiorder(n).regions() // 2 for n in (1, 2, 3)], [1, 3, 19])

    def test_weyl(self):
        """There are half as many hyperplanes as roots, and the exponents are those of the group."""
        for name, exponents in (("A3", (1, 2, 3)), ("B3", (1, 3, 5)), ("C3", (1, 3, 5)), ("D4", (1, 3, 3, 5)), ("G2", (1, 5)), ("F4", (1, 5, 7, 11))):
            self.assertEqual((len(weyl(name, 101)), weyl(name, 101).free().exponents), (sum(exponents), exponents))
        for letter, rank, count in (("E", 6, 36), ("E", 7, 63), ("E", 8, 120)):
            self.assertEqual(len(positive_roots(cartan_matrix(letter, rank))), count)
        self.assertEqual(weyl("A1 x G2").free().exponents, (1, 1, 5))
        for name in ("H3", "E5", "F", "A0", ""):
            self.bad("type", "no Cartan type", weyl, name)

    def test_monomial(self):
        """The exponents of the full ones are 1, r + 1, 2 r + 1; type B is G(2, 1, l), and type D G(2, 2, l)."""
        self.assertTrue(monomial(2, 1, 3, 31).same_hyperplanes(B3))
        self.assertTrue(monomial(2, 2, 3, 31).same_hyperplanes(Arrangement.type_d(3, 31)))
        self.assertEqual(monomial(5, 1, 3, 31).free().exponents, (1, 6, 11))
        self.bad("field", "no root of 1 of order 7", monomial, 7, 1, 3, 31)
        self.bad("group", "does not divide", monomial, 4, 3, 3, 5)

    def test_generic(self):
        self.assertEqual(generic(3, 5, 31).lattice().whitney(2), [1, 5, 10, 1])

    def test_gallery(self):
        names = gallery_names()
        self.assertEqual(len(names), len(set(names)))
        self.assertEqual(len(gallery("Hessian")), 12)
        self.assertEqual(gallery("f4").free().exponents, (1, 5, 7, 11))
        self.assertEqual(gallery("non-fano", 101).field.prime, 101)
        self.bad("gallery", "is none of", gallery, "fano")


class FlatsAsked(unittest.TestCase):
    def test_rank(self):
        self.assertEqual(LINES.flats(rank=2), [Flat(2, (1, 2, 3))])
        self.assertEqual((len(K4.flats(2)), K4.flats(5)), (7, []))


if __name__ == "__main__":
    unittest.main()
