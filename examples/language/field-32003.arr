# The greatest field. 16002 is a half, and on 2 x1 = x2 the coordinate x2 is dropped.
field 32003
let A = forms 2 [2 -1, 1 1, 32004 16002, 0 -32002]
hyperplanes A
point A
rank A
flats A
let R = restrict A 1
hyperplanes R
point R
rank R
flats R
let L = cone 0 []
hyperplanes L
point L
