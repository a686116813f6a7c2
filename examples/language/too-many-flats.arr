# The arrangement of type D in 8 variables has more than 100,000 flats. That is an answer, and the script goes on.
field 101
let D = typeD 8
flats D
rank D
