# Hyperplanes count from 1. There are three.
field 31
let A = forms 2 [1 0, 0 1, 1 -1]
rank A
let B = delete A 4
