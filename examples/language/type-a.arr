# The braid arrangement: all its planes hold the line x1 = x2 = x3.
field 5
let A = typeA 2
hyperplanes A
point A
rank A
flats A
