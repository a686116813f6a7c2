"""Pictures of arrangements from printed answers: lines in the projective plane, the lattice of flats, a Betti table."""
from .betti import betti_picture
from .kinds import kinds_picture
from .lattice import Look, lattice_of, lattice_picture
from .plane import differences, lines_picture
from .real_lines import given_lines, real_lines
from .real_numbers import real_rows

__all__ = [
    "Look", "betti_picture", "differences", "given_lines", "kinds_picture", "lattice_of", "lattice_picture",
    "lines_picture", "real_lines", "real_rows",
]
