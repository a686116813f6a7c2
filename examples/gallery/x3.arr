# The arrangement X3: the coordinate planes, and x + y, x + z, y + z.
# M. Falk, R. Randell, On the homotopy theory of arrangements, Adv. Stud. Pure Math. 8 (1987).
# The rows are those of the library of the Macaulay2 package HyperplaneArrangements (G. Denham, G. G. Smith).
# Known: 3 triple and 6 double lines; characteristic polynomial (t - 1)(t^2 - 5t + 7), so it is not free.
field 31
let X3 = forms 3 [1 0 0, 0 1 0, 0 0 1, 1 1 0, 1 0 1, 0 1 1]
rank X3
characteristic X3
flats X3
point X3
free X3
