# Three lines through the origin: {1 2 3} is a circuit, and {2 3} the broken circuit. So e2 e3 = e1 e3 - e1 e2 in the
# Orlik-Solomon algebra. Generators are multiplied in the order written, and a square is zero.
field 13
let A = forms 2 [1 0, 0 1, 1 -1]
normal A e2*e3
normal A e3*e2 + 2*e1 - 5
normal A e1*e1
normal A e1*e2*e3
# In the braid arrangement on four strings {5 6} is a broken circuit, of {4 5 6}. Numbers are taken modulo 13.
let B = typeA 3
normal B e1*e5*e6
normal B 33*e5*e6
# The boundary of a dependent set is zero in the algebra.
normal B e5*e6 - e4*e6 + e4*e5
