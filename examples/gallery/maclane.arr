# MacLane's arrangement: eight planes that need a cube root of one; 3 is one in the field of 13 elements, and 9 is its square.
# S. MacLane, Some interpretations of abstract linear dependence in terms of projective geometry, Amer. J. Math. 58 (1936).
# The rows are those of the library of the Macaulay2 package HyperplaneArrangements (G. Denham, G. G. Smith).
# Known: 8 triple and 4 double lines; characteristic polynomial (t - 1)(t^2 - 7t + 13), so it is not free.
field 13
let MacLane = forms 3 [1 0 0, 0 1 0, 0 0 1, 1 -1 0, 1 0 -1, 0 1 9, 1 9 -1, 1 9 3]
rank MacLane
characteristic MacLane
flats MacLane
point MacLane
free MacLane
