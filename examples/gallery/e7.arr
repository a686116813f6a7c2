# The reflection arrangement of type E7: a form for each positive root, whose coefficients are those of the root in the simple roots.
# N. Bourbaki, Lie Groups and Lie Algebras, chapter 6, plate VI; P. Orlik, H. Terao, Arrangements of Hyperplanes, appendix C.
# Known: 63 hyperplanes; characteristic polynomial (t - 1)(t - 5)(t - 7)(t - 9)(t - 11)(t - 13)(t - 17), and free with these
# exponents. A restriction has 46 = 1 + 5 + 7 + 9 + 11 + 13 hyperplanes and these exponents.
field 101
let E7 = forms 7 [1 0 0 0 0 0 0, 0 1 0 0 0 0 0, 0 0 1 0 0 0 0, 0 0 0 1 0 0 0, 0 0 0 0 1 0 0, 0 0 0 0 0 1 0, 0 0 0 0 0 0 1, 1 0 1 0 0 0 0, 0 1 0 1 0 0 0, 0 0 1 1 0 0 0, 0 0 0 1 1 0 0, 0 0 0 0 1 1 0, 0 0 0 0 0 1 1, 1 0 1 1 0 0 0, 0 1 1 1 0 0 0, 0 1 0 1 1 0 0, 0 0 1 1 1 0 0, 0 0 0 1 1 1 0, 0 0 0 0 1 1 1, 1 1 1 1 0 0 0, 1 0 1 1 1 0 0, 0 1 1 1 1 0 0, 0 1 0 1 1 1 0, 0 0 1 1 1 1 0, 0 0 0 1 1 1 1, 1 1 1 1 1 0 0, 1 0 1 1 1 1 0, 0 1 1 2 1 0 0, 0 1 1 1 1 1 0, 0 1 0 1 1 1 1, 0 0 1 1 1 1 1, 1 1 1 2 1 0 0, 1 1 1 1 1 1 0, 1 0 1 1 1 1 1, 0 1 1 2 1 1 0, 0 1 1 1 1 1 1, 1 1 2 2 1 0 0, 1 1 1 2 1 1 0, 1 1 1 1 1 1 1, 0 1 1 2 2 1 0, 0 1 1 2 1 1 1, 1 1 2 2 1 1 0, 1 1 1 2 2 1 0, 1 1 1 2 1 1 1, 0 1 1 2 2 1 1, 1 1 2 2 2 1 0, 1 1 2 2 1 1 1, 1 1 1 2 2 1 1, 0 1 1 2 2 2 1, 1 1 2 3 2 1 0, 1 1 2 2 2 1 1, 1 1 1 2 2 2 1, 1 2 2 3 2 1 0, 1 1 2 3 2 1 1, 1 1 2 2 2 2 1, 1 2 2 3 2 1 1, 1 1 2 3 2 2 1, 1 2 2 3 2 2 1, 1 1 2 3 3 2 1, 1 2 2 3 3 2 1, 1 2 2 4 3 2 1, 1 2 3 4 3 2 1, 2 2 3 4 3 2 1]
rank E7
characteristic E7
point E7
let R = restrict E7 1
rank R
characteristic R
point R
