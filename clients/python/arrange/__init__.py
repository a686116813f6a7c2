"""Proved answers about hyperplane arrangements over prime fields, asked of the program `arrange`.

>>> from arrange import Arrangement, Field
>>> lines = Arrangement.forms(["x", "y", "x - y"], Field(31))
>>> lines.point()
(1, 2)
>>> print(lines.poincare())
2*t^2 + 3*t + 1
"""
from .answers import (
    Certificate, Flat, Freeness, ModularChain, MultiRestriction, Resolution, ResolutionMap, Triple, Value,
)
from .arrangements import Arrangement
from .chains import ChainStep, SearchStopped
from .errors import (
    AnswerCutOff, ArrangeError, BadInput, Limit, ProgramError, ProgramFailed, ProgramMismatch, ProgramMissing, Refusal,
    TimeOut,
)
from .factors import Factored, factored
from .fields import PRIMES, Field
from .lattices import Lattice
from .matroids import LocalComponent
from .polynomials import ExteriorElement, GradedVector, Polynomial, Ring, matrix_text, polynomial_in_t
from .primes import Comparison, MatroidDiffers, compare_primes
from .printed import PrintedAnswer, read_answers
from .program import Answer, Program, ask, use
from .questions import Limits, Question
from .rationals import OverRationals, RationalFreeness, over_rationals
from .verification import faults_of_cofactor

__version__ = "0.3"

__all__ = [
    "PRIMES", "Answer", "AnswerCutOff", "ArrangeError", "Arrangement", "BadInput", "Certificate", "ChainStep",
    "Comparison", "ExteriorElement", "Factored", "Field", "Flat", "Freeness", "GradedVector", "Lattice", "Limit",
    "Limits", "LocalComponent", "MatroidDiffers", "ModularChain", "MultiRestriction", "OverRationals", "Polynomial",
    "PrintedAnswer", "Program", "ProgramError", "ProgramFailed", "ProgramMismatch", "ProgramMissing", "Question",
    "RationalFreeness", "Refusal", "Resolution", "ResolutionMap", "Ring", "SearchStopped", "TimeOut", "Triple",
    "Value", "ask", "compare_primes", "factored", "faults_of_cofactor", "matrix_text", "over_rationals",
    "polynomial_in_t", "read_answers", "use",
]
