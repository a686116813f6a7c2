# The reflection arrangement of type F4: the coordinates, x_i - x_j, x_i + x_j, and x1 + x2 + x3 + x4 with all signs.
# P. Orlik, H. Terao, Arrangements of Hyperplanes, chapter 6 and appendix C.
# Known: 24 hyperplanes; characteristic polynomial (t - 1)(t - 5)(t - 7)(t - 11); free with exponents 1, 5, 7, 11. Its planes of
# rank 2 are 72 of two hyperplanes, 32 of three and 18 of four; a restriction has the exponents 1, 5, 7.
field 31
let F4 = forms 4 [1 0 0 0, 0 1 0 0, 0 0 1 0, 0 0 0 1, 1 -1 0 0, 1 1 0 0, 1 0 -1 0, 1 0 1 0, 1 0 0 -1, 1 0 0 1, 0 1 -1 0, 0 1 1 0, 0 1 0 -1, 0 1 0 1, 0 0 1 -1, 0 0 1 1, 1 1 1 1, 1 1 1 -1, 1 1 -1 1, 1 1 -1 -1, 1 -1 1 1, 1 -1 1 -1, 1 -1 -1 1, 1 -1 -1 -1]
rank F4
characteristic F4
flats F4
point F4
let R = restrict F4 1
hyperplanes R
free F4
