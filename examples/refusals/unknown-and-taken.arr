# The name A is taken and Z is not known: what is not known comes first.
field 7
let A = boolean 2
rank A
let A = delete Z 1
