# On x2 + x3 = 0 the variable x3 is dropped: 2 x1 + 4 x2 is scaled, x3 becomes x2, and the forms 3 and 5 both become x1, kept once.
field 7
let A = forms 3 [0 1 1, 2 4 0, 1 1 1, 0 0 1, 1 -1 -1]
let R = restrict A 1
hyperplanes R
point R
rank R
flats R
let S = restrict R 3
hyperplanes S
point S
rank S
flats S
