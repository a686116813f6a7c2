# The Hessian arrangement: the twelve lines on which the nine inflection points of a plane cubic lie by threes, seen dually.
# It needs a cube root of one; 5 is one in the field of 31 elements, and 25 is its square.
# O. Hesse, J. reine angew. Math. 28 (1844); P. Orlik, H. Terao, Arrangements of Hyperplanes, chapter 6.
# The rows are those of the library of the Macaulay2 package HyperplaneArrangements (G. Denham, G. G. Smith).
# Known: 9 quadruple and 12 double points; characteristic polynomial (t - 1)(t - 4)(t - 7); free with exponents 1, 4, 7.
field 31
let Hessian = forms 3 [1 0 0, 0 1 0, 0 0 1, 1 1 1, 1 1 5, 1 1 25, 1 5 1, 1 5 5, 1 5 25, 1 25 1, 1 25 5, 1 25 25]
rank Hessian
characteristic Hessian
flats Hessian
point Hessian
free Hessian
