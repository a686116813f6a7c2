# The second configuration 9_3: as many triple points as that of Pappus and the same characteristic polynomial, and other flats.
# D. Hilbert, S. Cohn-Vossen, Geometry and the Imagination, chapter 3.
# The rows are those of the library of the Macaulay2 package HyperplaneArrangements (G. Denham, G. G. Smith).
# Known: 9 triple and 9 double points; characteristic polynomial (t - 1)(t^2 - 8t + 19), so it is not free.
# In that of Pappus the nine double points are three triangles, in this one they close one circle of nine lines.
field 31
let second = forms 3 [1 0 0, 0 1 0, 0 0 1, 1 1 0, 0 1 1, 1 0 3, 1 2 1, 1 2 3, 4 6 6]
rank second
characteristic second
flats second
point second
