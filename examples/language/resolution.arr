# A minimal free resolution of the module of logarithmic derivations: how many maps it has; for each its Betti numbers, which
# count its rows by degree from 0 on, and then the rows, each with its degree. The first map has the generators of `der` as
# its rows, and a row of a later map is a relation of the rows of the map before.
field 31
# Three lines in the plane are free: one map.
let A = forms 2 [1 0, 0 1, 1 -1]
resolve A
# Four planes in general position: four generators with one relation, which has degree 3.
let G = forms 3 [1 0 0, 0 1 0, 0 0 1, 1 1 1]
resolve G
# Five hyperplanes in general position in 4 variables: a map more.
let H = forms 4 [1 0 0 0, 0 1 0 0, 0 0 1 0, 0 0 0 1, 1 1 1 1]
resolve H
# With multiplicities, one for each form from 0 to 20.
resolve G [2 1 1 1]
# A limit on the critical pairs, or on the degree of their least common multiples, is answered where it is passed.
limit pairs 0
resolve G
