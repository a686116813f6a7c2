# The reflection arrangement of type E6: a form for each positive root, whose coefficients are those of the root in the simple roots.
# N. Bourbaki, Lie Groups and Lie Algebras, chapter 6, plate V; P. Orlik, H. Terao, Arrangements of Hyperplanes, appendix C.
# Known: 36 hyperplanes and 4598 flats (1, 36, 390, 1530, 2001, 639, 1 by rank); characteristic polynomial
# (t - 1)(t - 4)(t - 5)(t - 7)(t - 8)(t - 11); free with these exponents. A restriction has 25 = 1 + 4 + 5 + 7 + 8 hyperplanes.
field 101
let E6 = forms 6 [1 0 0 0 0 0, 0 1 0 0 0 0, 0 0 1 0 0 0, 0 0 0 1 0 0, 0 0 0 0 1 0, 0 0 0 0 0 1, 1 0 1 0 0 0, 0 1 0 1 0 0, 0 0 1 1 0 0, 0 0 0 1 1 0, 0 0 0 0 1 1, 1 0 1 1 0 0, 0 1 1 1 0 0, 0 1 0 1 1 0, 0 0 1 1 1 0, 0 0 0 1 1 1, 1 1 1 1 0 0, 1 0 1 1 1 0, 0 1 1 1 1 0, 0 1 0 1 1 1, 0 0 1 1 1 1, 1 1 1 1 1 0, 1 0 1 1 1 1, 0 1 1 2 1 0, 0 1 1 1 1 1, 1 1 1 2 1 0, 1 1 1 1 1 1, 0 1 1 2 1 1, 1 1 2 2 1 0, 1 1 1 2 1 1, 0 1 1 2 2 1, 1 1 2 2 1 1, 1 1 1 2 2 1, 1 1 2 2 2 1, 1 1 2 3 2 1, 1 2 2 3 2 1]
rank E6
characteristic E6
point E6
let R = restrict E6 1
hyperplanes R
rank R
characteristic R
point R
free E6
