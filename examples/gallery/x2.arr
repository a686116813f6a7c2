# The arrangement X2: seven planes.
# M. Falk, R. Randell, On the homotopy theory of arrangements, Adv. Stud. Pure Math. 8 (1987).
# The rows are those of the library of the Macaulay2 package HyperplaneArrangements (G. Denham, G. G. Smith).
# Known: 5 triple and 6 double lines; characteristic polynomial (t - 1)(t^2 - 6t + 10), so it is not free.
field 31
let X2 = forms 3 [1 0 0, 0 1 0, 0 0 1, 0 1 -1, 1 0 -1, 1 1 0, 1 1 -2]
rank X2
characteristic X2
flats X2
point X2
free X2
