# The coordinates first, and then x1 - x2, x1 + x2, x1 - x3 and so on.
field 13
let B = typeB 3
hyperplanes B
point B
rank B
flats B
