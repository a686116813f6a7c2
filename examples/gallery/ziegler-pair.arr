# Ziegler's pair: two arrangements of nine planes with the same flats. The six triple points of the second lie on a conic,
# those of the first don't, and the degrees of their derivations differ: these are no function of the flats.
# G. M. Ziegler, Combinatorial construction of logarithmic differential forms, Adv. Math. 76 (1989).
# The rows are those of the library of the Macaulay2 package HyperplaneArrangements (G. Denham, G. G. Smith).
# Known of both: 6 triple and 18 double points; characteristic polynomial (t - 1)(t^2 - 8t + 22), so neither is free.
field 31
let first = forms 3 [1 0 0, 0 1 0, 0 0 1, 1 1 1, 2 1 1, 2 3 1, 2 3 4, 3 0 5, 3 4 5]
let second = forms 3 [1 0 0, 0 1 0, 0 0 1, 1 1 1, 2 1 1, 2 3 1, 2 3 4, 1 0 3, 1 2 3]
rank first
characteristic first
flats first
point first
rank second
characteristic second
flats second
point second
free first
free second
