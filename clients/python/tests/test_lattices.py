"""The lattice of flats, against its definitions on arrangements drawn by chance, and against what is known of families."""
import importlib.util
import itertools
import math
import random
import time
import unittest

from arrange import Arrangement, BadInput, Flat, Lattice, polynomial_in_t
from arrange.families import generic
from arrange.rows import echelon

K4 = Arrangement.type_a(3, 31)


def flats_of(rows, prime):
    """The flats of some forms by closures of all their sets, without the program."""
    spans = {}
    for size in range(len(rows) + 1):
        for members in itertools.combinations(range(len(rows)), size):
            span = echelon([rows[k] for k in members], prime)
            closure = tuple(k + 1 for k, row in enumerate(rows) if not any(span.rest(row)))
            spans[closure] = span.rank
    return [Flat(rank, members) for members, rank in sorted(spans.items(), key=lambda it: (it[1], len(it[0]), it[0]))]


def flats_of_type_b(rank):
    """The flats of type B: coordinates that are zero, and classes of the others that are equal up to a sign."""
    number = {(i,): i + 1 for i in range(rank)}
    for k, (i, j) in enumerate(itertools.combinations(range(rank), 2)):
        number[i, j, -1], number[i, j, 1] = rank + 2 * k + 1, rank + 2 * k + 2
    found = []

    def extend(at, zero, classes):
        if at < rank:
            extend(at + 1, [*zero, at], classes)
            for k, those in enumerate(classes):
                for sign in (1, -1):
                    extend(at + 1, zero, [*classes[:k], [*those, (at, sign)], *classes[k + 1:]])
            extend(at + 1, zero, [*classes, [(at, 1)]])
            return
        members = [number[it,] for it in zero]
        members += [number[i, j, sign] for i, j in itertools.combinations(zero, 2) for sign in (-1, 1)]
        for those in classes:
            members += [number[i, j, -a * b] for (i, a), (j, b) in itertools.combinations(those, 2)]
        found.append(Flat(rank - len(classes), tuple(sorted(members))))

    extend(0, [], [])
    return found


def drawn(chance):
    """Forms drawn by chance, with few coefficients, so that many are dependent."""
    size, prime = chance.randrange(2, 5), chance.choice([5, 7, 31])
    rows = {}
    for _ in range(chance.randrange(1, 8)):
        row = tuple(chance.choice([0, 0, 1, 1, prime - 1]) for _ in range(size))
        lead = next((it for it in row if it), 0)
        if lead:
            rows[tuple(it * lead % prime for it in row)] = None
    return list(rows) or [(1,) * size], prime


class Definitions(unittest.TestCase):
    def setUp(self):
        chance = random.Random(7)
        self.lattices = []
        for _ in range(40):
            rows, prime = drawn(chance)
            self.lattices.append((Lattice(flats_of(rows, prime)), rows, prime))

    def test_covers(self):
        for lattice, _, _ in self.lattices:
            wanted = {
                (low, high) for low in lattice for high in lattice
                if high.rank == low.rank + 1 and set(low.hyperplanes) < set(high.hyperplanes)
            }
            self.assertEqual(set(lattice.covers()), wanted)
            self.assertEqual(len(lattice.covers()), len(wanted))

    def test_closures(self):
        for lattice, rows, prime in self.lattices:
            for members in itertools.chain.from_iterable(itertools.combinations(lattice.hyperplanes, k) for k in range(4)):
                span = echelon([rows[k - 1] for k in members], prime)
                self.assertEqual(lattice.rank_of(members), span.rank)
                closure = tuple(k for k, row in enumerate(rows, 1) if not any(span.rest(row)))
                self.assertEqual(lattice.closure(members).hyperplanes, closure)

    def test_joins_and_meets(self):
        for lattice, _, _ in self.lattices[:15]:
            for one, other in itertools.combinations(lattice, 2):
                above = [it for it in lattice if set(it.hyperplanes) >= {*one.hyperplanes, *other.hyperplanes}]
                self.assertEqual(lattice.join(one, other), min(above, key=lambda it: it.rank))
                both = set(one.hyperplanes) & set(other.hyperplanes)
                self.assertEqual(set(lattice.meet(one, other).hyperplanes), both)
                self.assertEqual(lattice.is_below(one, other), set(one.hyperplanes) <= set(other.hyperplanes))

    def test_mobius(self):
        """Over each interval of more than a flat the values have the sum 0."""
        for lattice, _, _ in self.lattices:
            for low, high in itertools.product(lattice, repeat=2):
                between = [it for it in lattice if lattice.is_below(low, it) and lattice.is_below(it, high)]
                total = sum(lattice.mobius(low, it) for it in between)
                self.assertEqual(total, int(low == high))
                if not between:
                    self.assertEqual(lattice.mobius(low, high), 0)
            self.assertEqual([lattice.mobius(it) for it in lattice], [lattice.mobius(lattice.bottom, it) for it in lattice])

    def test_doubly_indexed(self):
        for lattice, _, _ in self.lattices[:15]:
            for i, j in itertools.product(range(lattice.rank + 1), repeat=2):
                pairs = [(a, b) for a in lattice.of_rank(i) for b in lattice.of_rank(j) if lattice.is_below(a, b)]
                self.assertEqual(lattice.doubly_indexed(i, j, 2), len(pairs))
                self.assertEqual(lattice.doubly_indexed(i, j), sum(lattice.mobius(a, b) for a, b in pairs))

    def test_modular_flats(self):
        for lattice, _, _ in self.lattices:
            for one in lattice:
                modular = all(
                    one.rank + it.rank == lattice.join(one, it).rank + lattice.meet(one, it).rank for it in lattice
                )
                self.assertEqual(lattice.is_modular(one), modular)
                self.assertEqual(one in lattice.modular_flats(), modular)

    def test_modular_chains(self):
        """A chain is given exactly where some maximal chain has modular flats alone."""
        for lattice, _, _ in self.lattices:
            modular = lattice.modular_flats()
            ends = {lattice.bottom}
            for rank in range(1, lattice.rank + 1):
                ends = {it for it in modular if it.rank == rank and any(lattice.is_below(below, it) for below in ends)}
            chain = lattice.modular_chain()
            self.assertEqual(chain is not None, bool(ends))
            self.assertEqual(lattice.is_supersolvable(), bool(ends))
            if chain:
                self.assertEqual([it.rank for it in chain], list(range(lattice.rank + 1)))
                self.assertTrue(all(it in modular for it in chain))
                self.assertTrue(all(lattice.is_below(low, high) for low, high in zip(chain, chain[1:])))

    def test_tutte(self):
        """By its definition over all sets of hyperplanes."""
        for lattice, rows, prime in self.lattices[:25]:
            tutte = lattice.tutte()
            subsets = [it for k in range(len(rows) + 1) for it in itertools.combinations(rows, k)]
            ranks = [(echelon(it, prime).rank, len(it)) for it in subsets]
            for x, y in ((0, 0), (2, 0), (0, 3), (1, 1), (2, 2), (-1, 4)):
                wanted = sum((x - 1) ** (lattice.rank - r) * (y - 1) ** (n - r) for r, n in ranks)
                self.assertEqual(tutte(x, y), wanted)

    def test_components(self):
        """Two hyperplanes are in one factor exactly where some circuit has both; beta is 0 where there are more factors."""
        for lattice, rows, prime in self.lattices:
            parts = {it: {it} for it in lattice.hyperplanes}
            for k in range(2, len(rows) + 1):
                for members in itertools.combinations(lattice.hyperplanes, k):
                    ranks = [echelon([rows[j - 1] for j in members if j != left], prime).rank for left in members]
                    whole = echelon([rows[j - 1] for j in members], prime).rank
                    if whole == k - 1 and all(it == k - 1 for it in ranks):
                        joined = set().union(*(parts[it] for it in members))
                        for it in joined:
                            parts[it] = joined
            wanted = sorted({tuple(sorted(it)) for it in parts.values()})
            self.assertEqual(lattice.components(), wanted)
            self.assertEqual(lattice.beta() != 0, len(wanted) == 1)
            self.assertEqual(lattice.is_irreducible(), len(wanted) == 1)


class Known(unittest.TestCase):
    def test_complete_graph(self):
        """Partitions of four points: Whitney numbers are Stirling numbers, and the Tutte polynomial is the known one."""
        lattice = K4.lattice()
        self.assertEqual((lattice.whitney(1), lattice.whitney(2)), ([1, -6, 11, -6], [1, 6, 7, 1]))
        self.assertEqual(str(lattice.tutte()), "x^3 + y^3 + 3*x^2 + 4*x*y + 3*y^2 + 2*x + 2*y")
        self.assertEqual((lattice.beta(), lattice.components()), (2, [(1, 2, 3, 4, 5, 6)]))
        self.assertEqual(str(lattice.characteristic()), "t^3 - 6*t^2 + 11*t - 6")

    def test_supersolvable(self):
        """Graphs are so exactly where they are chordal; type D in rank 4 is not, and types A and B are."""
        cycle = Arrangement.graphic(4, "1-2 2-3 3-4 1-4", 31)
        self.assertIsNone(cycle.lattice().modular_chain())
        self.assertTrue(cycle.union(Arrangement.graphic(4, "1-3", 31)).lattice().is_supersolvable())
        self.assertTrue(Arrangement.type_b(3, 101).lattice().is_supersolvable())
        self.assertFalse(Arrangement.type_d(4, 101).lattice().is_supersolvable())

    def test_uniform(self):
        """Of n hyperplanes in general position: flats are the small sets, and beta is a binomial coefficient."""
        for size, count in ((2, 5), (3, 6), (4, 6)):
            lattice = generic(size, count, 31).lattice()
            self.assertEqual(lattice.whitney(2), [math.comb(count, k) for k in range(size)] + [1])
            self.assertEqual(lattice.beta(), math.comb(count - 2, size - 1))

    def test_boolean(self):
        lattice = Arrangement.boolean(3, 31).lattice()
        self.assertEqual(lattice.components(), [(1,), (2,), (3,)])
        self.assertEqual(len(lattice.modular_flats()), 8)
        self.assertEqual(str(lattice.tutte()), "x^3")

    def test_no_hyperplanes(self):
        lattice = Arrangement.forms([], 31, 2).lattice()
        self.assertEqual((len(lattice), lattice.rank, lattice.components(), lattice.covers()), (1, 0, [], []))
        self.assertEqual((str(lattice.tutte()), lattice.beta(), lattice.whitney()), ("1", 0, [1]))

    def test_the_program_agrees(self):
        for arrangement in (K4, Arrangement.type_b(3, 31), Arrangement.graphic(5, "1-2 2-3 3-4 4-5 5-1 1-3", 31)):
            lattice = arrangement.lattice()
            zeros = [0] * (arrangement.dimension - lattice.rank)
            self.assertEqual(arrangement.characteristic(), polynomial_in_t(zeros + lattice.characteristic().coefficients()))
            self.assertEqual(arrangement.poincare().coefficients(), [abs(it) for it in lattice.whitney()])
            self.assertEqual(arrangement.regions(), lattice.tutte()(2, 0))
            self.assertEqual(arrangement.bounded_regions(), lattice.beta())
            self.assertEqual(len(arrangement.nbc()), lattice.tutte()(2, 0))

    def test_large(self):
        """Type B in rank 7: its flats are Dowling's, the roots of its characteristic polynomial the odd numbers to 13."""
        flats = flats_of_type_b(7)
        start = time.process_time()
        lattice = Lattice(flats)
        self.assertEqual((len(lattice), len(lattice.covers())), (28640, sum(len(lattice.upper_covers(it)) for it in flats)))
        values = lattice.whitney()
        self.assertLess(time.process_time() - start, 20)  # it takes one or two
        for root in range(1, 14, 2):
            self.assertEqual(sum(it * root ** (7 - k) for k, it in enumerate(values)), 0)
        self.assertEqual([len(it.hyperplanes) for it in lattice.modular_chain()], [k * k for k in range(8)])

    def test_type_b_of_the_program(self):
        self.assertEqual(set(Arrangement.type_b(3, 31).flats()), set(flats_of_type_b(3)))


class Habits(unittest.TestCase):
    def test_members(self):
        lattice = K4.lattice()
        self.assertTrue(lattice.top in lattice and [1, 6] in lattice and (1, 2, 4) in lattice)
        self.assertFalse((1, 2) in lattice or Flat(1, (1, 6)) in lattice or 3 in lattice)
        self.assertEqual(list(lattice), K4.flats())
        self.assertEqual(lattice.upper_covers([1]), [Flat(2, (1, 6)), Flat(2, (1, 2, 4)), Flat(2, (1, 3, 5))])
        self.assertEqual(lattice.lower_covers([1, 6]), [Flat(1, (1,)), Flat(1, (6,))])
        self.assertEqual(lattice.of_rank(7), ())
        self.assertEqual(repr(lattice), "<Lattice of 15 flats by rank: 1, 6, 7, 1>")

    def test_faults(self):
        with self.assertRaisesRegex(BadInput, "hyperplane 7"):
            K4.lattice().closure([1, 7])
        with self.assertRaisesRegex(BadInput, "hyperplane 0"):
            K4.lattice().rank_of([0])
        for flats in ([], [Flat(0, ()), Flat(1, (1,)), Flat(1, (2,))], [Flat(0, ()), Flat(2, (1, 2))]):
            with self.assertRaisesRegex(BadInput, "not all flats"):
                Lattice(flats)
        with self.assertRaisesRegex(BadInput, "not all flats"):
            Lattice([it for it in K4.flats() if it.hyperplanes != (1, 6)]).covers()
        with self.assertRaisesRegex(BadInput, "kind"):
            K4.lattice().whitney(3)

    @unittest.skipUnless(importlib.util.find_spec("networkx"), "networkx is not installed")
    def test_networkx(self):
        lattice = K4.lattice()
        graph = lattice.to_networkx()
        self.assertEqual((graph.number_of_nodes(), graph.number_of_edges()), (15, 6 + 18 + 7))
        self.assertEqual(graph.nodes[lattice.top], {"rank": 3, "mobius": -6})


if __name__ == "__main__":
    unittest.main()
