# Three hyperplanes need three weights.
field 31
let A = forms 2 [1 0, 0 1, 1 -1]
aomoto A [1 1 29]
aomoto A [1 1]
