# The reflection arrangement of type H4, of the 120-cell: sixty hyperplanes, the most that a script may hold.
# It needs the golden ratio. In the field of 101 elements 45 is a root of 5, and the golden ratio is 23, for 23^2 = 23 + 1.
# H. S. M. Coxeter, Regular Polytopes; P. Orlik, H. Terao, Arrangements of Hyperplanes, chapter 6 and appendix C.
# Known: 2104 flats (1, 60, 722, 1320, 1 by rank); characteristic polynomial (t - 1)(t - 11)(t - 19)(t - 29); free with these
# exponents. A restriction has the exponents 1, 11, 19, so 31 planes.
field 101
let H4 = forms 4 [1 0 0 0, 0 1 0 0, 0 0 1 0, 0 0 0 1, 1 1 1 1, 1 1 1 -1, 1 1 -1 1, 1 1 -1 -1, 1 -1 1 1, 1 -1 1 -1, 1 -1 -1 1, 1 -1 -1 -1, 23 1 22 0, 23 1 -22 0, 23 -1 22 0, 23 -1 -22 0, 23 22 0 1, 23 -22 0 1, 23 22 0 -1, 23 -22 0 -1, 23 0 1 22, 23 0 1 -22, 23 0 -1 22, 23 0 -1 -22, 1 23 0 22, 1 23 0 -22, 1 -23 0 -22, 1 -23 0 22, 1 22 23 0, 1 -22 23 0, 1 -22 -23 0, 1 22 -23 0, 1 0 22 23, 1 0 -22 23, 1 0 -22 -23, 1 0 22 -23, 22 23 1 0, 22 -23 -1 0, 22 23 -1 0, 22 -23 1 0, 22 1 0 23, 22 -1 0 -23, 22 -1 0 23, 22 1 0 -23, 22 0 23 1, 22 0 -23 -1, 22 0 23 -1, 22 0 -23 1, 0 23 22 1, 0 23 -22 1, 0 23 22 -1, 0 23 -22 -1, 0 1 23 22, 0 1 23 -22, 0 1 -23 -22, 0 1 -23 22, 0 22 1 23, 0 22 -1 -23, 0 22 -1 23, 0 22 1 -23]
rank H4
characteristic H4
point H4
let R = restrict H4 1
hyperplanes R
rank R
characteristic R
flats R
