# The reflection arrangement of type H3, of the icosahedron: the mirrors of its fifteen pairs of opposite edges.
# It needs the golden ratio. In the field of 31 elements 6 is a root of 5, and the golden ratio is 19, for 19^2 = 19 + 1.
# H. S. M. Coxeter, Regular Polytopes; P. Orlik, H. Terao, Arrangements of Hyperplanes, chapter 6 and appendix C.
# Known: 6 quintuple, 10 triple and 15 double lines; characteristic polynomial (t - 1)(t - 5)(t - 9); free with exponents 1, 5, 9.
field 31
let H3 = forms 3 [1 0 0, 0 1 0, 0 0 1, 1 19 18, 18 1 19, 19 18 1, 1 19 -18, -18 1 19, 19 -18 1, 1 -19 18, 18 1 -19, -19 18 1, 1 -19 -18, -18 1 -19, -19 -18 1]
rank H3
characteristic H3
flats H3
point H3
free H3
