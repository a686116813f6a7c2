# Three planes through one line, and a fourth plane.
field 31
let A = forms 3 [1 0 0, 0 1 0, 1 1 0, 2 0 -1]
hyperplanes A
point A
rank A
flats A
