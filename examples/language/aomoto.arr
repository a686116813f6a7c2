# Three lines through the origin, and the product with w_1 e_1 + w_2 e_2 + w_3 e_3. Where the sum of the weights is not
# zero, there is no cohomology; it counts modulo 13. With all weights zero the cohomology is the algebra itself.
field 13
let A = forms 2 [1 0, 0 1, 1 -1]
aomoto A [1 1 1]
aomoto A [1 1 -2]
aomoto A [4 4 5]
aomoto A [0 0 0]
# The braid arrangement on four strings, with weights whose sum is zero: general ones; resonant ones at the triple point
# {1 2 4}; and those of the component that belongs to no flat, equal on each of {1 6}, {2 5} and {3 4}.
let B = typeA 3
aomoto B [1 2 3 4 5 -15]
aomoto B [1 2 0 -3 0 0]
aomoto B [1 2 -3 -3 2 1]
