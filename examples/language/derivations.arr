# Three lines in the plane over 31 elements: the reduced Gröbner basis of the logarithmic derivations, by degree, and
# minimal generators. Each line has the degree and the entries for x1 and x2.
field 31
let A = forms 2 [1 0, 0 1, 1 -1]
gb A
der A
# With multiplicities, one for each line from 0 to 20; with none all of them are 1.
gb A [2 1 1]
der A [0 0 3]
# Four planes in general position are not free: four generators, one more than there are variables.
let G = forms 3 [1 0 0, 0 1 0, 0 0 1, 1 1 1]
der G
# A limit on the critical pairs, or on the degree of their least common multiples, is answered where it is passed.
limit degree 1
gb A
limit pairs 0
gb A
