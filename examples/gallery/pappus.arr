# The theorem of Pappus: nine lines of the projective plane that meet by threes in nine points, three on each line.
# D. Hilbert, S. Cohn-Vossen, Geometry and the Imagination, chapter 3: the first of the configurations 9_3.
# The rows are those of the library of the Macaulay2 package HyperplaneArrangements (G. Denham, G. G. Smith).
# Known: 9 triple and 9 double points; characteristic polynomial (t - 1)(t^2 - 8t + 19), so it is not free.
field 31
let Pappus = forms 3 [1 0 0, 0 1 0, 0 0 1, 1 -1 0, 0 1 -1, 1 -1 -1, 2 1 1, 2 1 -1, 2 -5 1]
rank Pappus
characteristic Pappus
flats Pappus
point Pappus
free Pappus
