# The theorem of Desargues: ten lines of the projective plane that meet by threes in ten points, three on each line.
# D. Hilbert, S. Cohn-Vossen, Geometry and the Imagination, chapter 3: the configuration 10_3 of Desargues.
# The rows are those of the library of the Macaulay2 package HyperplaneArrangements (G. Denham, G. G. Smith).
# Known: 10 triple and 15 double points; characteristic polynomial (t - 1)(t^2 - 9t + 26), so it is not free.
field 31
let Desargues = forms 3 [1 0 0, 0 1 0, 0 0 1, 1 1 1, 2 0 -3, 2 1 -3, -3 -2 2, 1 2 1, 3 2 1, 2 1 0]
rank Desargues
characteristic Desargues
flats Desargues
point Desargues
free Desargues
