# The prism: six hyperplanes in 4 variables; as points they are the corners of a prism over a triangle, with three sides of four corners.
# The rows are those of the library of the Macaulay2 package HyperplaneArrangements (G. Denham, G. G. Smith).
# Known: no three hyperplanes share a plane, and three fours share a line; characteristic polynomial
# (t - 1)(t^3 - 5t^2 + 10t - 7), so it is not free.
field 13
let prism = forms 4 [1 0 0 0, 0 1 0 0, 0 0 1 0, 0 0 0 1, 1 1 0 1, 1 0 1 1]
rank prism
characteristic prism
flats prism
point prism
free prism
