"""Arrangements of hyperplanes, and the questions that may be asked of one."""
from __future__ import annotations

from dataclasses import dataclass
from functools import cached_property
from fractions import Fraction
from typing import Any, Iterable, Iterator, List, Optional, Sequence, Tuple, Union

from . import foreign
from .answers import Certificate, Flat, Freeness, ModularChain, MultiRestriction, Resolution, Triple
from .builds import Build, Deleted, Family, Forms, Graphic, Restricted, Row, check_build, check_index, is_affine, keep
from .decided import Decided
from .errors import ArrangeError, BadInput
from .fields import Field, FieldLike, field_of, rational, whole_number
from .linear_forms import Variables, numbered, parse_form, variables_among, variables_of
from .polynomials import ExteriorElement, GradedVector, Polynomial, Ring
from .program import ask_one
from .questions import Element, Limits, Multiplicities, Question
from .rows import monic
from .shown import picture

FormLike = Union[str, Sequence[Any], Any]
GREATEST = Field(32003)


@dataclass(frozen=True, repr=False)
class Arrangement(Decided):
    """A central arrangement over a prime field: how it is built, and the names of its variables.

    >>> print(Arrangement.forms(["x", "y", "x - y"], 31))
    3 hyperplanes in x, y over field 31: forms 2 [1 0, 0 1, 1 30]
    """

    field: Field
    build: Build
    variables: Tuple[str, ...]

    def __post_init__(self) -> None:
        check_build(self.build, self.field)

    # ---- how they are made

    @classmethod
    def forms(cls, forms: Iterable[FormLike], field: FieldLike = GREATEST, variables: Variables = None) -> Arrangement:
        """The arrangement of linear forms: rows of numbers, texts, polynomials also of Sage or sympy, or one text.

        >>> print(Arrangement.forms("x, y, x - y", 31))
        3 hyperplanes in x, y over field 31: forms 2 [1 0, 0 1, 1 30]
        >>> Arrangement.forms([[1, 0], [2, 0]], 31)
        Traceback (most recent call last):
            ...
        arrange.errors.BadInput: form 2: it is a multiple of form 1 over the field with 31 elements
        """
        return cls._of_forms(_listed(forms), field_of(field), variables, is_cone=False)

    @classmethod
    def cone(cls, forms: Iterable[FormLike], field: FieldLike = GREATEST, variables: Variables = None) -> Arrangement:
        """The cone over affine hyperplanes: rows that end in the constant, or texts or polynomials with one.

        Its last variable is x of the next number where the others are x1, x2, .., and else h.

        >>> print(Arrangement.cone(["x", "x - 1"], 31))
        3 hyperplanes in x, h over field 31: cone 1 [1 0, 1 30]
        """
        return cls._of_forms(_listed(forms), field_of(field), variables, is_cone=True)

    @classmethod
    def affine(cls, forms: Iterable[FormLike], field: FieldLike = GREATEST, variables: Variables = None) -> Arrangement:
        """Affine hyperplanes as they are: rows that end in the constant, or texts or polynomials with one.

        Of these the program answers `hyperplanes`, `point`, `rank`, `flats`, `poincare`, `characteristic` and `triple`.

        >>> print(Arrangement.affine(["x", "x - 1"], 31))
        2 affine hyperplanes in x over field 31: affine 1 [1 0, 1 30]
        """
        return cls._of_forms(_listed(forms), field_of(field), variables, is_cone=True, is_affine=True)

    @classmethod
    def _of_forms(
        cls, forms: List[FormLike], field: Field, variables: Variables, is_cone: bool, is_affine: bool = False
    ) -> Arrangement:
        """The arrangement of some forms: central ones, or with `is_cone` such with constants or their cone."""
        numbers = 0
        if forms and foreign.is_of_sympy(forms[0]):
            names = _names_of_sympy(forms, variables)
            rows = [_row_of_sympy(form, names, f"form {i}", is_cone) for i, form in enumerate(forms, 1)]
        elif forms and isinstance(forms[0], Polynomial):
            names, numbers = forms[0].ring.variables, forms[0].ring.prime or 0
            rows = [_row_of_polynomial(form, forms[0].ring, f"form {i}", is_cone) for i, form in enumerate(forms, 1)]
        elif forms and foreign.has_variables(forms[0]):
            names, numbers = foreign.ring_of(forms)
            rows = [_row_of_sage(form, names, f"form {i}", is_cone) for i, form in enumerate(forms, 1)]
        elif any(isinstance(form, str) for form in forms):
            names = variables_of(variables, _texts(forms))
            rows = [_row_of_text(text, names, f"form {i}", is_cone) for i, text in enumerate(_texts(forms), 1)]
        else:
            given = [_numbers_of(form, f"form {i}") for i, form in enumerate(forms, 1)]
            rows = [_row_of_numbers(row, f"form {i}") for i, row in enumerate(given, 1)]
            names = _names_of_rows(rows, variables, is_cone)
            numbers = foreign.characteristic_of_rows(given)
        if is_cone and not is_affine:
            names += (_homogenizing(names),)
        return cls(field, Forms(len(names), tuple(rows), is_cone and not is_affine, numbers, is_affine), names)

    @classmethod
    def type_a(cls, rank: int, field: FieldLike = GREATEST) -> Arrangement:
        """The braid arrangement: x_i - x_j in rank + 1 variables.

        >>> len(Arrangement.type_a(3))
        6
        """
        return cls._family("typeA", rank, field)

    @classmethod
    def type_b(cls, rank: int, field: FieldLike = GREATEST) -> Arrangement:
        """The coordinates, and x_i - x_j and x_i + x_j."""
        return cls._family("typeB", rank, field)

    @classmethod
    def type_d(cls, rank: int, field: FieldLike = GREATEST) -> Arrangement:
        """x_i - x_j and x_i + x_j."""
        return cls._family("typeD", rank, field)

    @classmethod
    def boolean(cls, rank: int, field: FieldLike = GREATEST) -> Arrangement:
        """The coordinate hyperplanes."""
        return cls._family("boolean", rank, field)

    @classmethod
    def _family(cls, word: str, rank: int, field: FieldLike) -> Arrangement:
        build = Family(word, whole_number(rank, "rank"))
        return cls(field_of(field), build, numbered(build.dimension))

    @classmethod
    def graphic(
        cls, vertices: int, edges: Union[str, Iterable[Tuple[int, int]]], field: FieldLike = GREATEST
    ) -> Arrangement:
        """The arrangement of a graph with the vertices 1, 2, .. and these edges in their order, or as "1-2 2-3".

        >>> Arrangement.graphic(3, [(1, 2), (2, 3), (2, 1)])
        Traceback (most recent call last):
            ...
        arrange.errors.BadInput: edge 3: 2-1 joins what edge 1 joins
        """
        count = whole_number(vertices, "vertices")
        given = [_edge_of_text(it) for it in edges.replace(",", " ").split()] if isinstance(edges, str) else edges
        pairs = tuple(_edge(it, k) for k, it in enumerate(given, 1))
        return cls(field_of(field), Graphic(count, pairs), numbered(count))

    @classmethod
    def from_graph(cls, graph: Any, field: FieldLike = GREATEST) -> Arrangement:
        """The arrangement of a graph of networkx or Sage, whose vertices and edges are counted in their order."""
        return cls.graphic(*foreign.edges_of_graph(graph), field=field)

    @classmethod
    def from_sage(cls, arrangement: Any, field: FieldLike = GREATEST) -> Arrangement:
        """A central hyperplane arrangement of Sage, over the rationals or over the same field, in its order."""
        rows, variables, numbers = foreign.rows_of_sage(arrangement)
        return cls(field_of(field), Forms(len(variables), rows, False, numbers), variables)

    def delete(self, index: Union[int, Flat, Iterable[int]]) -> Arrangement:
        """The arrangement without a hyperplane, or without several."""
        if isinstance(index, (Flat, Iterable)):
            gone = self._members(index)
            return self.keep([it for it in range(1, len(self) + 1) if it not in gone])
        return Arrangement(self.field, Deleted(self.build, whole_number(index, "hyperplane")), self.variables)

    def keep(self, indices: Union[Flat, Iterable[int]]) -> Arrangement:
        """The arrangement of some of the hyperplanes, in their order."""
        return Arrangement(self.field, keep(self.build, self._members(indices), len(self)), self.variables)

    def _members(self, indices: Union[Flat, Iterable[int]]) -> List[int]:
        """Numbers of hyperplanes, as a Flat has them or as they are."""
        given = indices.hyperplanes if isinstance(indices, Flat) else indices
        members = [whole_number(it, "hyperplane") for it in given]
        for it in members:
            check_index(it, len(self))
        return members

    def restrict(self, index: int) -> Arrangement:
        """The arrangement that the others cut out of a hyperplane, in the coordinates that the program chooses."""
        build = Restricted(self.build, whole_number(index, "hyperplane"))
        return Arrangement(self.field, build, numbered(build.dimension))

    def over(self, field: FieldLike) -> Arrangement:
        """The same arrangement over another field: its integers and fractions are taken into that one."""
        return Arrangement(field_of(field), self.build, self.variables)

    # ---- what they are

    @property
    def dimension(self) -> int:
        return self.build.dimension

    @property
    def is_affine(self) -> bool:
        """Whether its hyperplanes are given as affine ones, with constants."""
        return is_affine(self.build)

    @property
    def ring(self) -> Ring:
        """The ring in which the forms lie."""
        return Ring(self.field.prime, self.variables)

    def __len__(self) -> int:
        """How many hyperplanes there are. Of a restriction the program is asked."""
        count = self.build.count()
        return len(self._rows) if count is None else count

    def __bool__(self) -> bool:
        return True

    @cached_property
    def _rows(self) -> Tuple[Tuple[int, ...], ...]:
        """The coefficients, and of affine forms the constants too where all of them are zero and none is printed."""
        width = self.dimension + self.is_affine
        return tuple((*row, 0)[:width] for row in self.hyperplanes())

    def __getitem__(self, index: int) -> Polynomial:
        """The form of a hyperplane, which are counted from 1.

        >>> print(Arrangement.type_a(2, 31)[3])
        x2 - x3
        """
        number = whole_number(index, "hyperplane")
        check_index(number, len(self))
        return self._form(self._rows[number - 1])

    def _form(self, row: Sequence[int]) -> Polynomial:
        """The form with these coefficients, and the constant behind them where there is one."""
        return self.ring.form(row[: self.dimension]) + sum(row[self.dimension :])

    def __iter__(self) -> Iterator[Polynomial]:
        """The forms of the hyperplanes.

        >>> print(*Arrangement.boolean(3, 31), sep=", ")
        x1, x2, x3
        """
        return map(self._form, self._rows)

    def __contains__(self, form: FormLike) -> bool:
        """Whether the hyperplane of a form is one of the arrangement's.

        >>> "y - x" in Arrangement.forms(["x", "y", "x - y"], 31)
        True
        """
        if isinstance(form, Polynomial) and form.ring == self.ring:
            row, constant = form.linear_row() or ([], 0)
            if constant and not self.is_affine:
                return False
            return monic([*row, *[constant] * self.is_affine], self.field.prime) in self.hyperplane_set()
        made = Arrangement.affine if self.is_affine else Arrangement.forms
        return made([form], self.field, self.variables).issubset(self)

    def __repr__(self) -> str:
        return f"<Arrangement: {self}>"

    def __str__(self) -> str:
        count = self.build.count()
        kind = "affine hyperplane" if self.is_affine else "hyperplane"
        many = "a restriction" if count is None else f"{count} {kind}{'s' * (count != 1)}"
        text = _shown(self.build, self.field)
        return f"{many} in {', '.join(self.variables)} over {self.field}: {text}"

    def latex(self) -> str:
        """The product of its forms, and the ring in which they lie.

        >>> print(Arrangement.forms("x, y, x - y", 31).latex())
        x \\, y \\, (x - y) \\in \\mathbb{F}_{31}[x, y]
        """
        factors = [f"({it.latex()})" if len(it.terms) > 1 else it.latex() for it in self]
        return r" \, ".join(factors or ["1"]) + r" \in " + self.ring.latex()

    def _repr_latex_(self) -> Optional[str]:
        try:
            return f"${self.latex()}$"
        except ArrangeError:
            return None

    def _repr_svg_(self) -> Optional[str]:
        """The lines in the projective plane, of an arrangement of rank 3."""
        try:
            flats = self.flats() if self.rank() == 3 else []
        except ArrangeError:
            return None
        if not flats:
            return None
        return picture("lines_picture", self.hyperplanes(), flats, self.field.prime, "the arrangement")

    # ---- what may be asked of them

    def hyperplanes(self) -> List[Tuple[int, ...]]:
        """The forms: their coefficients as residues.

        >>> Arrangement.type_a(2, 31).restrict(1).hyperplanes()
        [(1, 30)]
        """
        return ask_one(Question.hyperplanes(self), list)

    def point(self) -> Tuple[int, ...]:
        """The lexicographically least point off all hyperplanes.

        >>> Arrangement.type_b(3, 101).point()
        (1, 2, 3)
        """
        return ask_one(Question.point(self), tuple)

    def rank(self) -> int:
        """The rank: the codimension of what all hyperplanes have in common."""
        return ask_one(Question.rank(self), int)

    def flats(self, rank: Optional[int] = None) -> List[Flat]:
        """Every flat once, by rank, then by size, then lexicographically; or those of a rank alone.

        >>> [str(flat) for flat in Arrangement.boolean(2).flats()]
        ['0: {}', '1: {1}', '1: {2}', '2: {1 2}']
        >>> len(Arrangement.type_a(3).flats(rank=2))
        7
        """
        return [it for it in ask_one(Question.flats(self), list) if rank in (None, it.rank)]

    def poincare(self) -> Polynomial:
        """The Poincaré polynomial.

        >>> print(Arrangement.type_a(3).poincare())
        6*t^3 + 11*t^2 + 6*t + 1
        """
        return ask_one(Question.poincare(self), Polynomial)

    def characteristic(self) -> Polynomial:
        """The characteristic polynomial.

        >>> Arrangement.type_a(3).characteristic().coefficients()
        [0, -6, 11, -6, 1]
        """
        return ask_one(Question.characteristic(self), Polynomial)

    def triple(self, index: int) -> Triple:
        """The Poincaré polynomials of the arrangement, of its deletion and of its restriction.

        >>> triple = Arrangement.forms(["x", "y", "x - y"], 31).triple(3)
        >>> print(triple.whole, "|", triple.deleted, "|", triple.restricted)
        2*t^2 + 3*t + 1 | t^2 + 2*t + 1 | t + 1
        """
        return ask_one(Question.triple(self, index), Triple)

    def circuits(self) -> List[Tuple[int, ...]]:
        """Every minimal dependent set of hyperplanes.

        >>> Arrangement.graphic(4, [(1, 2), (2, 3), (3, 4), (4, 1)]).circuits()
        [(1, 2, 3, 4)]
        """
        return ask_one(Question.circuits(self), list)

    def nbc(self) -> List[Tuple[int, ...]]:
        """Every set of hyperplanes that contains no broken circuit.

        >>> Arrangement.forms(["x", "y", "x - y"], 31).nbc()
        [(), (1,), (2,), (3,), (1, 2), (1, 3)]
        """
        return ask_one(Question.nbc(self), list)

    def normal(self, element: Element) -> ExteriorElement:
        """The normal form of an element of the Orlik-Solomon algebra: a text, or residues by tuples of hyperplanes.

        >>> A = Arrangement.forms(["x", "y", "x - y"], 31)
        >>> print(A.normal("e3*e2 + 2*e1 - 5"))
        -5 + 2*e1 + e1*e2 - e1*e3
        >>> A.normal({(3, 2): 1, (1,): 2, (): -5}) == A.normal("e3*e2 + 2*e1 - 5")
        True
        """
        return ask_one(Question.normal(self, element), ExteriorElement)

    def aomoto(self, weights: Sequence[Any]) -> List[int]:
        """The dimensions of the cohomology of that algebra under the product with the sum of w_i e_i.

        >>> Arrangement.forms(["x", "y", "x - y"], 31).aomoto([1, 1, -2])
        [0, 1, 1]
        """
        return ask_one(Question.aomoto(self, weights), list)

    def gb(self, multiplicities: Multiplicities = None, limits: Limits = Limits()) -> List[GradedVector]:
        """The reduced Gröbner basis of the module of logarithmic derivations.

        >>> [str(it) for it in Arrangement.forms(["x", "y", "x - y"], 31).gb()]
        ['(x, y)', '(0, x*y - y^2)']
        """
        return ask_one(Question.gb(self, multiplicities, limits), list)

    def der(self, multiplicities: Multiplicities = None, limits: Limits = Limits()) -> List[GradedVector]:
        """Minimal generators of the module of logarithmic derivations.

        >>> [it.degree for it in Arrangement.forms(["x", "y", "z", "x + y + z"], 31).der()]
        [1, 2, 2, 2]
        """
        return ask_one(Question.der(self, multiplicities, limits), list)

    def resolve(self, multiplicities: Multiplicities = None, limits: Limits = Limits()) -> Resolution:
        """A minimal free resolution of that module, with its Betti numbers."""
        return ask_one(Question.resolve(self, multiplicities, limits), Resolution)

    def free(self, multiplicities: Multiplicities = None, limits: Limits = Limits()) -> Freeness:
        """Whether that module is free: with a basis and a certificate, or with the number of its generators."""
        return ask_one(Question.free(self, multiplicities, limits), Freeness)

    def certify(self, multiplicities: Multiplicities = None, limits: Limits = Limits()) -> Certificate:
        """Whether that module is free: with a basis and its cofactor matrix, or with the number of its generators."""
        return ask_one(Question.certify(self, multiplicities, limits), Certificate)

    def hilbert(self, degree: int, multiplicities: Multiplicities = None, limits: Limits = Limits()) -> List[int]:
        """The dimensions of that module in the degrees from 0 to this one."""
        return ask_one(Question.hilbert(self, degree, multiplicities, limits), list)

    def super(self) -> ModularChain:
        """Whether the arrangement is supersolvable: with a maximal chain of modular flats and its exponents."""
        return ask_one(Question.super(self), ModularChain)

    def ziegler(self, index: int, limits: Limits = Limits()) -> MultiRestriction:
        """The restriction to a hyperplane with Ziegler's multiplicities, and whether it is free."""
        return ask_one(Question.ziegler(self, index, limits), MultiRestriction)


def _shown(build: Build, field: Field) -> str:
    """How it is built, as in a script, with what a deletion or restriction is made of in parentheses."""
    return build.line(field, lambda whole: f"({_shown(whole, field)})")


# ---- rows


def _listed(forms: Iterable[FormLike]) -> List[FormLike]:
    """The forms one by one: a text is split at its commas, and a matrix into rows."""
    if isinstance(forms, str):
        return list(forms.split(",")) if forms.strip() else []
    return list(foreign.rows_in(forms))


def _names_of_sympy(forms: Sequence[Any], variables: Variables) -> Tuple[str, ...]:
    """The names of the variables that were given, or else those that the expressions of sympy have."""
    for i, form in enumerate(forms, 1):
        if not foreign.is_of_sympy(form):
            raise BadInput(f"form {i}", f"{form!r} is no expression of sympy, as other forms are")
    return variables_among(foreign.names_in(forms)) if variables is None else variables_of(variables, [])


def _texts(forms: Sequence[FormLike]) -> List[str]:
    texts = []
    for i, form in enumerate(forms, 1):
        if not isinstance(form, str):
            raise BadInput(f"form {i}", f"{form!r} is no text, as other forms are")
        texts.append(form)
    return texts


def _numbers_of(form: FormLike, place: str) -> Tuple[Any, ...]:
    try:
        return tuple(form)
    except TypeError:
        raise BadInput(place, f"{form!r} is no row of numbers, no text and no polynomial of Sage") from None


def _row_of_numbers(row: Tuple[Any, ...], place: str) -> Row:
    return tuple(rational(it, f"{place}, coefficient {j}") for j, it in enumerate(row, 1))


def _row_of_text(text: str, names: Tuple[str, ...], place: str, is_cone: bool) -> Row:
    row, constant = parse_form(text, names, place)
    return _with_constant(row, constant, place, is_cone)


def _row_of_sympy(form: Any, names: Tuple[str, ...], place: str, is_cone: bool) -> Row:
    row, constant = foreign.coefficients_of_sympy(form, names, place)
    return _with_constant(row, constant, place, is_cone)


def _row_of_polynomial(form: Any, ring: Ring, place: str, is_cone: bool) -> Row:
    if not isinstance(form, Polynomial) or form.ring != ring:
        raise BadInput(place, f"{form} lies in another ring than form 1")
    found = form.linear_row()
    if found is None:
        raise BadInput(place, f"{form} is not linear")
    return _with_constant(list(map(Fraction, found[0])), Fraction(found[1]), place, is_cone)


def _row_of_sage(form: Any, names: Tuple[str, ...], place: str, is_cone: bool) -> Row:
    row, constant = foreign.coefficients_of(form, names, place)
    return _with_constant(row, constant, place, is_cone)


def _with_constant(row: List[Fraction], constant: Fraction, place: str, is_cone: bool) -> Row:
    if constant and not is_cone:
        raise BadInput(place, f"it has the constant {constant}; Arrangement.cone takes affine forms")
    return (*row, constant) if is_cone else tuple(row)


def _names_of_rows(rows: Sequence[Row], variables: Variables, is_cone: bool) -> Tuple[str, ...]:
    """The names of the variables of rows of numbers, which must all have as many."""
    if variables is None and not rows:
        raise BadInput("variables", "without forms the number of variables has to be given")
    names = numbered(len(rows[0]) - is_cone) if variables is None else variables_of(variables, [])
    for i, row in enumerate(rows, 1):
        if len(row) != len(names) + is_cone:
            raise BadInput(f"form {i}", f"it has {len(row)} numbers where {len(names) + is_cone} are wanted")
    return names


def _homogenizing(names: Tuple[str, ...]) -> str:
    """The name of the last variable of a cone."""
    if names == numbered(len(names)):
        return f"x{len(names) + 1}"
    return next(name for name in ("h", *(f"h{k}" for k in range(len(names)))) if name not in names)


def _edge_of_text(text: str) -> Tuple[Any, ...]:
    return tuple(int(it) if it.isdigit() else it for it in text.split("-"))


def _edge(edge: Optional[Sequence[Any]], number: int) -> Tuple[int, int]:
    try:
        first, second = edge  # type: ignore[misc]
    except (TypeError, ValueError):
        raise BadInput(f"edge {number}", f"{edge!r} is no pair of vertices") from None
    return whole_number(first, f"edge {number}"), whole_number(second, f"edge {number}")
