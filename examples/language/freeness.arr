# Freeness. Where the module of logarithmic derivations is free: a basis of it with the degrees, which are the exponents; the
# least point off the hyperplanes; and the inverse of the matrix of the basis's values there. By Saito's criterion derivations
# with such a matrix at a point off the hyperplanes, whose degrees have the number of hyperplanes as their sum, are a basis.
field 31
let A = forms 2 [1 0, 0 1, 1 -1]
free A
# With multiplicities, one for each line from 0 to 20.
free A [2 1 1]
# Four planes in general position are not free: the module needs four generators, one more than there are variables.
let G = forms 3 [1 0 0, 0 1 0, 0 0 1, 1 1 1]
free G
# Without its last plane it is free.
let B = delete G 4
free B
# A limit on the critical pairs, or on the degree of their least common multiples, is answered where it is passed.
limit degree 1
free A
