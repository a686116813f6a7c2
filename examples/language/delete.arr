# The hyperplanes behind the deleted one are counted anew; A stays as it was.
field 7
let A = typeB 2
let B = delete A 2
hyperplanes B
point B
rank B
flats B
let C = delete B 3
hyperplanes C
point C
rank C
flats C
rank A
