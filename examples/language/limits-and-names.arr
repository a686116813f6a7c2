# Limits may be set at any place, before the field too. Each arrangement keeps its name, and a command's word may be one.
limit pairs 5000
field 13
limit degree 240
let A = typeA 2
let a = boolean 2
let point = restrict A 1
limit pairs 0
rank A
rank a
rank point
limit degree 0
limit pairs 1000000
point point
hyperplanes point
point A
