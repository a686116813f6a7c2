# The cones over the Shi arrangements of three and four points: x_i - x_j = 0 and x_i - x_j = 1 for i < j.
# J.-Y. Shi, The Kazhdan-Lusztig Cells in Certain Affine Weyl Groups, Springer LNM 1179 (1986).
# C. A. Athanasiadis, On free deformations of the braid arrangement, European J. Combin. 19 (1998).
# Known for n points: characteristic polynomial t(t - 1)(t - n)^(n - 1); free with exponents 0, 1, and n taken n - 1 times.
field 31
let shi3 = cone 3 [1 -1 0 0, 1 -1 0 -1, 1 0 -1 0, 1 0 -1 -1, 0 1 -1 0, 0 1 -1 -1]
let shi4 = cone 4 [1 -1 0 0 0, 1 -1 0 0 -1, 1 0 -1 0 0, 1 0 -1 0 -1, 1 0 0 -1 0, 1 0 0 -1 -1, 0 1 -1 0 0, 0 1 -1 0 -1, 0 1 0 -1 0, 0 1 0 -1 -1, 0 0 1 -1 0, 0 0 1 -1 -1]
hyperplanes shi3
rank shi3
characteristic shi3
flats shi3
point shi3
rank shi4
characteristic shi4
flats shi4
point shi4
free shi3
free shi4
