# The braid arrangement on four strings, cut with a hyperplane across the line that all its planes share.
# E. Fadell, L. Neuwirth, Configuration spaces, Math. Scand. 10 (1962); P. Orlik, H. Terao, Arrangements of Hyperplanes, 1.2.
# The rows are those of the library of the Macaulay2 package HyperplaneArrangements (G. Denham, G. G. Smith).
# Known: 6 planes, 4 triple and 3 double lines; characteristic polynomial (t - 1)(t - 2)(t - 3); free with exponents 1, 2, 3.
field 31
let braid = forms 3 [1 0 0, 0 1 0, 0 0 1, 1 -1 0, 1 0 -1, 0 1 -1]
rank braid
characteristic braid
flats braid
point braid
free braid
