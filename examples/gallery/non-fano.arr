# The non-Fano arrangement: the seven planes of the Fano plane, of which one line of three has come apart.
# J. Oxley, Matroid Theory, the matroid F7-; P. Orlik, H. Terao, Arrangements of Hyperplanes.
# The rows are those of the library of the Macaulay2 package HyperplaneArrangements (G. Denham, G. G. Smith).
# Known: 6 triple and 3 double lines; characteristic polynomial (t - 1)(t - 3)^2; free with exponents 1, 3, 3.
field 31
let nonFano = forms 3 [1 0 0, 0 1 0, 0 0 1, 0 1 -1, 1 0 -1, 1 -1 0, 1 1 -1]
rank nonFano
characteristic nonFano
flats nonFano
point nonFano
free nonFano
