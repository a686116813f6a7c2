"""A reading of the definitions by enumeration: what the program must write, found in another way.

The points of a space are gone through one by one: a hyperplane is the set of its points, a flat comes from the
intersections of such sets, and a rank from the number of points. No form is reduced. The Orlik-Solomon algebra is the
exterior algebra modulo the span of all products of generators with boundaries of circuits, and no product is straightened.
Derivations are found degree by degree, as the solutions of linear equations for their coefficients, and the limits by all
combinations of a degree in the larger module; no vector is divided. An arrangement is free where there are as many
generators as variables, and the certificate is solved for by linear equations. Of `resolve`, whose later maps may be
others, only the refusals are read.
"""
import functools
import itertools
import re

PRIMES = (5, 7, 13, 31, 101, 251, 32003)
MOST_DIM, MOST_FORMS, MOST_PAIRS, MOST_DEGREE = 10, 64, 1000000, 240
MOST_POINTS = 32003  # spaces of so many points are enumerated
MOST_SETS = 100000
MOST_GENERATORS = 8  # exterior algebras on so many generators are gone through
MOST_MULTIPLICITY = 20
LARGEST_DERIVED = 3, 5, 6  # derivations in so many variables are sought, of so many forms with such a sum of multiplicities
FIRST_LIMITS = {"pairs": 100000, "degree": 240}
ANY = ("hyperplanes", "point")
ENUMERATED = ("rank", "flats", "poincare", "characteristic", "triple", "circuits", "nbc")
ALGEBRA = ("normal", "aomoto")
DERIVED = ("gb", "der", "free")
WITH_MULTIPLICITIES = DERIVED + ("resolve",)
QUESTIONS = ANY + ENUMERATED + ALGEBRA + WITH_MULTIPLICITIES


# ---- arrangements
def value(form, x):
    return sum(a * b for a, b in zip(form, x))


class TooLarge(Exception):
    """A space with too many points, or an algebra with too many generators."""


# ---- elements of the exterior algebra: the coefficient of each product of generators, by the rising tuple of their numbers
def wedge_of_sets(s, t):
    """The product of e_S and e_T: the set and the sign that sorts S followed by T, or sign 0 where they meet."""
    both = s + t
    swaps = sum(a > b for k, a in enumerate(both) for b in both[k + 1 :])
    return tuple(sorted(both)), (-1) ** swaps if len(set(both)) == len(both) else 0


def wedge(x, y, p):
    product = {}
    for s, a in x.items():
        for t, b in y.items():
            both, sign = wedge_of_sets(s, t)
            product[both] = (product.get(both, 0) + sign * a * b) % p
    return {s: c for s, c in product.items() if c}


def plus_multiple(x, c, y, p):
    total = {s: (x.get(s, 0) + c * y.get(s, 0)) % p for s in x.keys() | y.keys()}
    return {s: c for s, c in total.items() if c}


def boundary(s):
    return {s[:k] + s[k + 1 :]: (-1) ** k for k in range(len(s))}


class Span:
    """A space of elements, with a basis: each member has a set with coefficient 1 that no later member has. It is the
    least by the key among its sets."""

    def __init__(self, p, key):
        self.p, self.key, self.basis = p, key, {}

    def rest(self, x):
        """What is left of x when multiples of the basis are taken away: it has none of their sets."""
        for s, member in self.basis.items():
            if x.get(s):
                x = plus_multiple(x, -x[s], member, self.p)
        return x

    def add(self, x):
        x = self.rest(x)
        if x:
            s = min(x, key=self.key)
            self.basis[s] = {t: c * pow(x[s], -1, self.p) % self.p for t, c in x.items()}

    def with_all(self, elements):
        more = Span(self.p, self.key)
        more.basis = dict(self.basis)
        for x in elements:
            more.add(x)
        return more


# ---- polynomials and vectors: the coefficient of each monomial, and of each term, which is a monomial with a component
def monomials(count, degree):
    if count == 1:
        return [(degree,)]
    return [(e,) + rest for e in range(degree + 1) for rest in monomials(count - 1, degree - e)]


def product(m, other):
    return tuple(a + b for a, b in zip(m, other))


def term_divides(s, t):
    return s[1] == t[1] and all(a <= b for a, b in zip(s[0], t[0]))


def falling(split):
    """A key that puts the greater of two terms of one degree first, in the elimination order with this split."""
    return lambda t: (t[1] > split, t[0][::-1], t[1])


def times(x, y, p):
    total = {}
    for m, a in x.items():
        for other, b in y.items():
            both = product(m, other)
            total[both] = (total.get(both, 0) + a * b) % p
    return {m: c for m, c in total.items() if c}


def power(x, exponent, count, p):
    result = {(0,) * count: 1}
    for _ in range(exponent):
        result = times(result, x, p)
    return result


def multiple(v, m):
    return {(product(t, m), c): a for (t, c), a in v.items()}


def inverse_of(matrix, p):
    """The solution N of matrix N = 1, in the way of a Span: the columns of the matrix stand before those of 1."""
    count = len(matrix)
    span = Span(p, lambda place: place)
    for i, row in enumerate(matrix):
        span.add({**{k: c for k, c in enumerate(row) if c}, count + i: 1})
    solved = [span.rest({t: c for t, c in span.basis[k].items() if t != k}) for k in range(count)]
    return [[row.get(count + i, 0) for i in range(count)] for row in solved]


class Derivations:
    """The logarithmic derivations of an arrangement with multiplicities."""

    def __init__(self, arr, mult):
        dim, forms, total = LARGEST_DERIVED
        if arr.dim > dim or len(arr.forms) > forms or sum(mult) > total:
            raise TooLarge
        self.arr, self.p, self.dim, self.forms, self.mult = arr, arr.p, arr.dim, arr.forms, mult
        self.last_degree = sum(mult) + 2  # what is asked for is found up to this degree

    def part_of_powers(self, i, m):
        """The coefficients of 1, y, .., y^(k-1) in the monomial, for y the form and k its multiplicity, once the last
        variable that the form has is written by y and the others. They are all zero where the power divides."""
        form, p = self.forms[i], self.p
        last = max(k for k in range(self.dim) if form[k])
        scale = pow(form[last], -1, p)
        unit = [tuple(int(k == n) for n in range(self.dim + 1)) for k in range(self.dim + 1)]
        line = {unit[self.dim]: scale}
        line.update({unit[k]: -scale * form[k] % p for k in range(self.dim) if k != last and form[k]})
        rest = {tuple(0 if k == last else e for k, e in enumerate(m)) + (0,): 1}
        written = times(rest, power(line, m[last], self.dim + 1, p), p)
        return {t: c for t, c in written.items() if t[self.dim] < self.mult[i]}

    @functools.lru_cache(maxsize=None)
    def of_degree(self, d):
        """The derivations of degree d, as a space: terms stand behind what the equations ask to be zero."""
        key = falling(0)
        space = Span(self.p, lambda t: (0, t[1], t[2]) if t[0] == "asked" else (1, key(t)))
        for m in monomials(self.dim, d):
            parts = [self.part_of_powers(i, m) for i in range(len(self.forms))]
            for j in range(self.dim):
                x = {(m, j + 1): 1}
                for i, part in enumerate(parts):
                    x.update({("asked", i, t): c * self.forms[i][j] % self.p for t, c in part.items() if self.forms[i][j]})
                space.add(x)
        space.basis = {t: v for t, v in space.basis.items() if t[0] != "asked"}
        return space

    @functools.lru_cache(maxsize=None)
    def basis(self):
        """The reduced Gröbner basis: each member with its degree and its lead."""
        found = []
        for d in range(self.last_degree + 1):
            space = self.of_degree(d)
            for t in sorted(space.basis, key=falling(0)):
                if not any(term_divides(lead, t) for _, lead, _ in found):
                    tail = {s: c for s, c in space.basis[t].items() if s != t}
                    found.append((d, t, {t: 1, **space.rest(tail)}))
        return found

    def generators(self):
        kept = []
        for k, (d, t, v) in enumerate(self.basis()):
            earlier = Span(self.p, falling(0))
            for e, _, w in self.basis()[:k]:
                for m in monomials(self.dim, d - e):
                    earlier.add(multiple(w, m))
            if earlier.rest(v):
                kept.append((d, t, v))
        return kept

    def larger(self, d):
        """The part of degree d of the larger module: the images of derivations on the forms, modulo the powers of these."""
        count = len(self.forms)
        space = Span(self.p, falling(count))
        for m in monomials(self.dim, d):
            for j in range(self.dim):
                x = {(m, i + 1): form[j] for i, form in enumerate(self.forms) if form[j]}
                space.add({**x, (m, count + j + 1): 1})
        for i, form in enumerate(self.forms):
            line = {tuple(int(k == n) for n in range(self.dim)): c for k, c in enumerate(form) if c}
            whole = power(line, self.mult[i], self.dim, self.p)
            for m in monomials(self.dim, d - self.mult[i]) if d >= self.mult[i] else ():
                space.add({(product(m, n), i + 1): c for n, c in whole.items()})
        return space

    def stop(self, limits):
        """The limit that the least leads of the larger module pass first, degree by degree."""
        if limits == FIRST_LIMITS:
            return None
        leads = []
        for d in range(self.last_degree + 1):
            leads += [t for t in self.larger(d).basis if not any(term_divides(lead, t) for lead in leads)]
            pairs = [(s, t) for s, t in itertools.combinations(leads, 2) if s[1] == t[1]]
            if len(pairs) > limits["pairs"]:
                return "pairs"
            if any(sum(map(max, s[0], t[0])) > limits["degree"] for s, t in pairs):
                return "degree"
        return None

    def entry(self, v, component):
        terms = sorted(((m[::-1], m, c) for (m, place), c in v.items() if place == component))
        words = ["".join([str(c)] + [f"*x{k}" + f"^{e}" * (e > 1) for k, e in enumerate(m, 1) if e]) for _, m, c in terms]
        return " + ".join(words) or "0"

    def rows(self, vectors):
        return [f"{d}: ({', '.join(self.entry(v, c) for c in range(1, self.dim + 1))})" for d, _, v in vectors]

    def lines(self, vectors):
        return [f" {len(vectors)}"] + self.rows(vectors)

    def freeness(self):
        """The generators where there are as many as variables, the least point and the inverse of their values there."""
        basis = self.generators()
        if len(basis) != self.dim:
            return [f" no {len(basis)}"]
        x = self.arr.point()
        values = [[self.value_at(v, c, x) for c in range(1, self.dim + 1)] for _, _, v in basis]
        inverse = inverse_of(values, self.p)
        return [" yes"] + self.rows(basis) + ["point: " + " ".join(map(str, x)), "inverse:"] + [" ".join(map(str, row)) for row in inverse]

    def value_at(self, v, component, x):
        terms = ((c, m) for (m, place), c in v.items() if place == component)
        return sum(c * functools.reduce(lambda a, k: a * pow(x[k], m[k], self.p), range(self.dim), 1) for c, m in terms) % self.p


class Arrangement:
    """A dimension and forms over the residues modulo p."""

    def __init__(self, p, dim, forms):
        self.p, self.dim, self.forms = p, dim, [tuple(c % p for c in form) for form in forms]

    @functools.cached_property
    def places(self):
        """Coordinates such that each point differs by one that lies in all hyperplanes from exactly one point that is
        zero at all other coordinates: points with these coordinates alone tell ranks and flats."""
        span = Span(self.p, lambda k: k)
        for form in self.forms:
            span.add({k: a for k, a in enumerate(form) if a})
        return sorted(span.basis)

    @property
    def is_enumerable(self):
        return self.p ** len(self.places) <= MOST_POINTS

    def points_at(self, places):
        """For each form the set of the points with these coordinates where it is zero: a bit for each point in
        lexicographic order."""
        sets = []
        for form in self.forms:
            values = [0]
            for k in places:
                values = [(u + form[k] * x) % self.p for u in values for x in range(self.p)]
            sets.append(int("".join("0" if u else "1" for u in reversed(values)), 2))
        return sets

    @functools.cached_property
    def hyperplanes(self):
        if not self.is_enumerable:
            raise TooLarge
        return self.points_at(self.places)

    @functools.cached_property
    def space(self):
        if not self.is_enumerable:
            raise TooLarge
        return 2 ** self.p ** len(self.places) - 1

    def rank_of(self, cut):
        count, most = bin(cut).count("1"), len(self.places)
        return next(r for r in range(most + 1) if count * self.p**r == self.p**most)

    def rank(self):
        return self.rank_of(functools.reduce(lambda cut, points: cut & points, self.hyperplanes, self.space))

    @functools.lru_cache(maxsize=None)
    def flats(self):
        cuts = {self.space}
        for points in self.hyperplanes:
            cuts |= {cut & points for cut in cuts}
        found = []
        for cut in cuts:
            members = [j for j, points in enumerate(self.hyperplanes, 1) if cut & points == cut]
            found.append((self.rank_of(cut), len(members), members))
        return sorted(found)

    def poincare(self):
        """The Möbius values are read off their equations, flat by flat."""
        flats = [(rank, sum(1 << j for j in members)) for rank, _, members in self.flats()]
        values = []
        for _, members in flats:
            within = sum(value for value, (_, other) in zip(values, flats) if other & members == other)
            values.append(-within if members else 1)
        sums = [0] * (self.rank() + 1)
        for value, (rank, _) in zip(values, flats):
            sums[rank] += value
        return [(-1) ** rank * total for rank, total in enumerate(sums)]

    def characteristic(self):
        coefficients = [0] * (self.dim + 1)
        for rank, number in enumerate(self.poincare()):
            coefficients[self.dim - rank] = (-1) ** rank * number
        return coefficients

    @functools.cached_property
    def ranks(self):
        """The rank of each set of points that was looked at."""
        return {}

    def has_rank(self, members, rank):
        cut = functools.reduce(lambda points, j: points & self.hyperplanes[j - 1], members, self.space)
        if cut not in self.ranks:
            self.ranks[cut] = self.rank_of(cut)
        return self.ranks[cut] == rank

    @functools.lru_cache(maxsize=None)
    def circuits(self):
        """Each independent set in turn gets a greater hyperplane: where it is dependent then, each member must count."""
        found, level = [], [()]
        while level:
            longer = []
            for members in level:
                for j in range(members[-1] + 1 if members else 1, len(self.forms) + 1):
                    more = members + (j,)
                    if self.has_rank(more, len(more)):
                        longer.append(more)
                    elif all(self.has_rank(more[:k] + more[k + 1 :], len(members)) for k in range(len(more))):
                        found.append(more)
            level = longer
        return sorted(found, key=lambda members: (len(members), members))

    def nbc(self):
        """A set without broken circuit gets a greater hyperplane, with which no part of it is a broken circuit."""
        broken = {circuit[1:] for circuit in self.circuits()}
        found = level = [()]
        while level:
            level = [
                members + (j,)
                for members in level
                for j in range(members[-1] + 1 if members else 1, len(self.forms) + 1)
                if not any(part + (j,) in broken for k in range(len(members) + 1) for part in itertools.combinations(members, k))
            ]
            found = found + level
        return found

    @property
    def has_derivations(self):
        return self.dim <= LARGEST_DERIVED[0] and len(self.forms) <= LARGEST_DERIVED[1]

    @property
    def has_algebra(self):
        return self.is_enumerable and len(self.forms) <= MOST_GENERATORS

    def sets(self, k):
        return itertools.combinations(range(1, len(self.forms) + 1), k)

    @functools.lru_cache(maxsize=None)
    def ideal(self, k):
        """The part of degree k of the ideal that the boundaries of circuits generate. The sets that contain a broken
        circuit come first, so the basis has one member for each of these."""
        if not self.has_algebra:
            raise TooLarge
        nbc = set(self.nbc())
        span = Span(self.p, lambda s: (s in nbc, s))
        for circuit in self.circuits():
            for s in self.sets(k + 1 - len(circuit)) if len(circuit) <= k + 1 else ():
                span.add(wedge({s: 1}, boundary(circuit), self.p))
        assert all(s not in nbc for s in span.basis)
        assert all(s in nbc or s in span.basis for s in self.sets(k))
        return span

    def normal(self, x):
        """The element without a set that contains a broken circuit that differs from x by a member of the ideal."""
        for k in range(len(self.forms) + 1):
            x = self.ideal(k).rest(x)
        return sorted(x.items(), key=lambda term: (len(term[0]), term[0]))

    def aomoto(self, weights):
        """In each degree the dimension of the algebra, less the ranks of the products into it and out of it."""
        omega = {(i,): w % self.p for i, w in enumerate(weights, 1) if w % self.p}
        dimensions, before = [], 0
        for k in range(self.rank() + 1):
            above = self.ideal(k + 1)
            products = above.with_all(wedge(omega, {s: 1}, self.p) for s in self.sets(k))
            rank = len(products.basis) - len(above.basis)
            dimensions.append(len(list(self.sets(k))) - len(self.ideal(k).basis) - before - rank)
            before = rank
        return dimensions

    def point(self):
        if self.p**self.dim > MOST_POINTS:
            return self.point_by_search(())
        on = functools.reduce(lambda all_points, points: all_points | points, self.points_at(range(self.dim)), 0)
        off = (2**self.p**self.dim - 1) & ~on
        number = bin(off)[::-1].index("1")
        return [number // self.p**k % self.p for k in reversed(range(self.dim))]

    def point_by_search(self, x):
        """The least point off all hyperplanes that begins with x, if there is one: a form whose other coefficients are
        zero is known from x."""
        if any(not any(form[len(x) :]) and value(form, x) % self.p == 0 for form in self.forms):
            return None
        if len(x) == self.dim:
            return x
        return next(filter(None, (self.point_by_search(x + (c,)) for c in range(self.p))), None)

    def delete(self, i):
        return Arrangement(self.p, self.dim, self.forms[: i - 1] + self.forms[i:])

    def restrict(self, i):
        """The forms are read off their values at the points of H_i that have a coordinate 1 and the others 0, but for
        the coordinate that is dropped."""
        kept = list(range(self.dim))
        form = self.forms[i - 1]
        dropped = max(k for k in kept if form[k])
        kept.remove(dropped)
        axes = []
        for k in kept:
            x = [int(m == k) for m in range(self.dim)]
            x[dropped] = next(c for c in range(self.p) if (form[k] + form[dropped] * c) % self.p == 0)
            axes.append(x)
        forms = []
        for other in self.delete(i).forms:
            values = [value(other, x) % self.p for x in axes]
            first = next(filter(None, values))
            scale = next(c for c in range(self.p) if c * first % self.p == 1)
            values = [scale * c % self.p for c in values]
            if values not in forms:
                forms.append(values)
        return Arrangement(self.p, self.dim - 1, forms)


def axis(dim, i):
    return [int(k == i) for k in range(1, dim + 1)]


def two_axes(dim, i, j, c):
    """x_i + c x_j"""
    return [a + c * b for a, b in zip(axis(dim, i), axis(dim, j))]


def family(kind, r):
    if kind == "typeA":
        return [two_axes(r + 1, i, j, -1) for i in range(1, r + 2) for j in range(i + 1, r + 2)]
    axes = [axis(r, i) for i in range(1, r + 1)]
    pairs = [two_axes(r, i, j, c) for i in range(1, r + 1) for j in range(i + 1, r + 1) for c in (-1, 1)]
    return {"boolean": axes, "typeD": pairs, "typeB": axes + pairs}[kind]


# ---- the language
class Refused(Exception):
    pass


def refuse_where(holds, words):
    if holds:
        raise Refused(words)


def tokens(line):
    return re.findall(r"[A-Za-z][A-Za-z0-9_]*|[0-9]+|\S", line.split("#")[0])


def rows_of(ts):
    """The rows of numbers between brackets."""
    text = "".join("-" if t == "-" else t + " " for t in ts).strip("[] ")
    return [[int(c) for c in row.split()] for row in text.split(",")] if text else []


def products_of(ts):
    """The products of an expression, each with its numbers, of which the first is its sign, and its generators."""
    products = []
    for t in ts if ts[0] == "-" else ["+"] + ts:
        if t in "+-":
            products.append(([1 if t == "+" else -1], []))
        elif t != "*":
            products[-1][t[0] == "e"].append(int(t.lstrip("e")))
    return products


def element_of(products, p):
    x = {}
    for numbers, generators in products:
        product = {(): functools.reduce(lambda a, b: a * b % p, numbers)}
        for i in generators:
            product = wedge(product, {(i,): 1}, p)
        x = plus_multiple(x, 1, product, p)
    return x


def weights_of(ts):
    return (rows_of(ts) or [[]])[0]


def are_proportional(a, b, p):
    return all((a[k] * b[m] - a[m] * b[k]) % p == 0 for k in range(len(a)) for m in range(k))


class Session:
    """The arrangements by name, and what each line does."""

    def __init__(self):
        self.p, self.named, self.limits = None, {}, dict(FIRST_LIMITS)

    def run(self, ts):
        """The answer to a command; what is refused is raised."""
        refuse_where(self.p is None and ts[0] not in ("field", "limit"), "no field")
        return {"field": self.field, "limit": self.limit, "let": self.let}.get(ts[0], self.ask)(ts)

    def field(self, ts):
        refuse_where(self.p is not None, "field twice")
        refuse_where(int(ts[1]) not in PRIMES, f"field not listed {int(ts[1])}")
        self.p = int(ts[1])
        return ""

    def limit(self, ts):
        refuse_where(int(ts[2]) > {"pairs": MOST_PAIRS, "degree": MOST_DEGREE}[ts[1]], "bad limit")
        self.limits[ts[1]] = int(ts[2])
        return ""

    def refuse_question(self, ts):
        refuse_where(ts[1] not in self.named, f"unknown name {ts[1]}")
        if ts[0] == "triple":
            arr, i = self.named[ts[1]], int(ts[2])
            refuse_where(arr.dim == 1, "dimension")
            refuse_where(not 1 <= i <= len(arr.forms), f"bad index {i}")
        elif ts[0] == "normal":
            generators = [i for _, generators in products_of(ts[2:]) for i in generators]
            for i in generators:
                refuse_where(not 1 <= i <= len(self.named[ts[1]].forms), f"bad index {i}")
        elif ts[0] == "aomoto":
            refuse_where(len(weights_of(ts[2:])) != len(self.named[ts[1]].forms), "bad list")
        elif ts[0] in WITH_MULTIPLICITIES and ts[2:]:
            mult = weights_of(ts[2:])
            refuse_where(len(mult) != len(self.named[ts[1]].forms), "bad list")
            refuse_where(any(not 0 <= m <= MOST_MULTIPLICITY for m in mult), "bad list")

    def ask(self, ts):
        self.refuse_question(ts)
        question, name = ts[:2]
        arr = self.named[name]
        if question == "hyperplanes":
            lines = [f" {len(arr.forms)} in {arr.dim}"] + [" ".join(map(str, form)) for form in arr.forms]
        elif question == "point":
            lines = ["".join(f" {c}" for c in arr.point())]
        elif question == "rank":
            lines = [f" {arr.rank()}"]
        elif question == "flats":
            flats = arr.flats()
            lines = [f" {len(flats)}"] + [f"{r}: {{{' '.join(map(str, members))}}}" for r, _, members in flats]
        elif question in ("poincare", "characteristic"):
            lines = ["".join(f" {c}" for c in (arr.poincare() if question == "poincare" else arr.characteristic()))]
        elif question == "triple":
            i = int(ts[2])
            parts = {"whole": arr, "deleted": arr.delete(i), "restricted": arr.restrict(i)}
            lines = [""] + [f"{part}: {' '.join(map(str, it.poincare()))}" for part, it in parts.items()]
        elif question in ("circuits", "nbc"):
            sets = arr.circuits() if question == "circuits" else arr.nbc()
            lines = [f" {len(sets)}"] + [f"{{{' '.join(map(str, members))}}}" for members in sets]
            lines = [f" limit {question}"] if len(sets) > MOST_SETS else lines
        elif question == "normal":
            terms = arr.normal(element_of(products_of(ts[2:]), self.p))
            lines = [" " + (" + ".join(str(c) + "".join(f"*e{i}" for i in s) for s, c in terms) or "0")]
        elif question == "aomoto":
            lines = ["".join(f" {number}" for number in arr.aomoto(weights_of(ts[2:])))]
        elif question in DERIVED:
            it = Derivations(arr, tuple(weights_of(ts[2:]) if ts[2:] else [1] * len(arr.forms)))
            stop = it.stop(self.limits)
            lines = [f" limit {stop}"] if stop else {
                "gb": lambda: it.lines(it.basis()),
                "der": lambda: it.lines(it.generators()),
                "free": it.freeness,
            }[question]()
        else:
            raise TooLarge
        return f"{question} {name}:" + "".join(line + "\n" for line in lines)

    def let(self, ts):
        name, kind, rest = ts[1], ts[3], ts[4:]
        is_cut = kind in ("delete", "restrict")
        refuse_where(is_cut and rest[0] not in self.named, f"unknown name {rest[0]}")
        refuse_where(name in self.named, f"name taken {name}")
        self.named[name] = self.cut(kind, *rest) if is_cut else self.new(kind, int(rest[0]), rest[1:])
        return ""

    def cut(self, kind, source, number):
        arr, i = self.named[source], int(number)
        refuse_where(kind == "restrict" and arr.dim == 1, "dimension")
        refuse_where(not 1 <= i <= len(arr.forms), f"bad index {i}")
        return arr.delete(i) if kind == "delete" else arr.restrict(i)

    def new(self, kind, size, ts):
        dim = size + 1 if kind in ("cone", "typeA") else size
        refuse_where(not 1 <= dim <= MOST_DIM, "dimension")
        if kind in ("forms", "cone"):
            forms = rows_of(ts)
            refuse_where(any(len(row) != dim for row in forms), "dimension")
            forms += [axis(dim, dim)] if kind == "cone" else []
        elif kind == "graphic":
            ends = [int(t) for t in ts if t.isdigit()]
            edges = [tuple(sorted(edge)) for edge in zip(ends[::2], ends[1::2])]
            for k, (i, j) in enumerate(edges, 1):
                refuse_where(i == j or i < 1 or j > dim or (i, j) in edges[: k - 1], f"bad graph {k}")
            forms = [two_axes(dim, i, j, -1) for i, j in edges]
        else:
            forms = family(kind, size)
        for i, a in enumerate(forms, 1):
            refuse_where(all(c % self.p == 0 for c in a), f"zero form {i}")
        for j, b in enumerate(forms, 1):
            for i, a in enumerate(forms[: j - 1], 1):
                refuse_where(are_proportional(a, b, self.p), f"repeated {i} {j}")
        refuse_where(len(forms) > MOST_FORMS or len(forms) >= self.p, f"too many {len(forms)}")
        return Arrangement(self.p, dim, forms)


def answers(script):
    """What the program must write, and its exit status. Each line must be empty or a command of the grammar."""
    session, text = Session(), ""
    for number, line in enumerate(script.split("\n"), 1):
        try:
            ts = tokens(line)
            text += session.run(ts) if ts else ""
        except Refused as refusal:
            return text + f"refused line {number}: {refusal}\n", 1
    return text, 0
