# The cones over the Catalan arrangements of three and four points: x_i - x_j = -1, 0 and 1 for i < j.
# A. Postnikov, R. P. Stanley, Deformations of Coxeter hyperplane arrangements, J. Combin. Theory A 91 (2000).
# Known for n points: characteristic polynomial t(t - 1)(t - n - 1)(t - n - 2)..(t - 2n + 1); free with these exponents.
field 31
let catalan3 = cone 3 [1 -1 0 1, 1 -1 0 0, 1 -1 0 -1, 1 0 -1 1, 1 0 -1 0, 1 0 -1 -1, 0 1 -1 1, 0 1 -1 0, 0 1 -1 -1]
let catalan4 = cone 4 [1 -1 0 0 1, 1 -1 0 0 0, 1 -1 0 0 -1, 1 0 -1 0 1, 1 0 -1 0 0, 1 0 -1 0 -1, 1 0 0 -1 1, 1 0 0 -1 0, 1 0 0 -1 -1, 0 1 -1 0 1, 0 1 -1 0 0, 0 1 -1 0 -1, 0 1 0 -1 1, 0 1 0 -1 0, 0 1 0 -1 -1, 0 0 1 -1 1, 0 0 1 -1 0, 0 0 1 -1 -1]
hyperplanes catalan3
rank catalan3
characteristic catalan3
flats catalan3
point catalan3
rank catalan4
characteristic catalan4
flats catalan4
point catalan4
free catalan3
free catalan4
