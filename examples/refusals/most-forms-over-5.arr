# Over 5 elements four forms are the most: they leave a point, and five are refused though no two of them are proportional.
field 5
let B = typeB 2
hyperplanes B
point B
rank B
flats B
let C = forms 2 [1 0, 0 1, 1 1, 1 2, 1 3]
