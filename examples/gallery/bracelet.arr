# The bracelet: nine hyperplanes in 4 variables.
# The rows are those of the library of the Macaulay2 package HyperplaneArrangements (G. Denham, G. G. Smith).
# Known: 6 triple and 18 double planes; characteristic polynomial (t - 1)(t - 2)(t^2 - 6t + 10), so it is not free.
field 13
let bracelet = forms 4 [1 0 0 0, 0 1 0 0, 0 0 1 0, 1 0 0 1, 0 1 0 1, 0 0 1 1, 1 1 0 1, 1 0 1 1, 0 1 1 1]
rank bracelet
characteristic bracelet
flats bracelet
point bracelet
free bracelet
