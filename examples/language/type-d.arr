# Type D has a form less than type B for each coordinate, and the least point may have a zero.
field 7
let D = typeD 3
hyperplanes D
point D
rank D
flats D
let E = typeD 1
hyperplanes E
flats E
