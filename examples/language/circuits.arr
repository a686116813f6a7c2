# Of the six planes of the braid arrangement on four points the circuits are the circles of the complete graph, of three
# and of four edges. The sets without broken circuit are counted by its Poincaré polynomial, 1 + 6 t + 11 t^2 + 6 t^3.
field 13
let A = typeA 3
circuits A
nbc A
poincare A
