# The coordinate planes: every set of them is a flat.
field 5
let S = boolean 3
hyperplanes S
point S
rank S
flats S
