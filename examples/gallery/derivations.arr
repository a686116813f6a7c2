# Free arrangements: as many generators as variables, whose degrees are the exponents.
# Orlik and Terao, Arrangements of Hyperplanes (1992), chapter 6: a reflection arrangement is free, with the exponents of
# its group: 1 2 3 of type A in rank 3 (and 0 for the line that all hyperplanes contain), 1 3 5 of type B, 1 2 3 of type D.
field 101
let A = typeA 3
der A
let B = typeB 3
der B
let D = typeD 3
der D
# H. Terao, Multiderivations of Coxeter arrangements (2002): with all multiplicities 2k the exponents are k h, and with
# 2k + 1 they are k h + e_i, where h is the Coxeter number: 3 of type A in rank 2, and 4 of type B.
let S = typeA 2
der S [2 2 2]
der S [3 3 3]
let T = typeB 2
der T [2 2 2 2]
der T [3 3 3 3]
# Orlik and Terao, section 4.2: four general planes are not free.
let G = forms 3 [1 0 0, 0 1 0, 0 0 1, 1 1 1]
der G
