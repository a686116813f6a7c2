# The cones over the Linial arrangements of three and four points: x_i - x_j = 1 for i < j.
# A. Postnikov, R. P. Stanley, Deformations of Coxeter hyperplane arrangements, J. Combin. Theory A 91 (2000).
# Known: 7 and 36 regions; characteristic polynomials t(t - 1)(t^2 - 3t + 3) and t(t - 1)(t - 2)(t^2 - 4t + 7), so neither is free.
field 31
let linial3 = cone 3 [1 -1 0 -1, 1 0 -1 -1, 0 1 -1 -1]
let linial4 = cone 4 [1 -1 0 0 -1, 1 0 -1 0 -1, 1 0 0 -1 -1, 0 1 -1 0 -1, 0 1 0 -1 -1, 0 0 1 -1 -1]
hyperplanes linial3
rank linial3
characteristic linial3
flats linial3
point linial3
rank linial4
characteristic linial4
flats linial4
point linial4
free linial3
free linial4
