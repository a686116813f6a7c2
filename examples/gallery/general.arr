# Hyperplanes in general position: n forms in l variables, any l of which are independent.
# L. L. Rose, H. Terao, A free resolution of the module of logarithmic forms of a generic arrangement, J. Algebra 136 (1991);
# S. Yuzvinsky, A free resolution of the module of derivations for generic arrangements, J. Algebra 136 (1991).
# Known for n > l > 2: not free; a generator of degree 1, and C(n - 1, l - 2) of degree n - l + 1; then, k maps behind the
# first, C(n - 1, l - 2 - k) C(n - l - 1 + k, k) rows, all of degree n - l + 1 + k, for k up to l - 2.
field 32003
let four_in_3 = forms 3 [1 0 0, 0 1 0, 0 0 1, 1 1 1]
let six_in_3 = forms 3 [1 1 1, 1 2 4, 1 3 9, 1 4 16, 1 5 25, 1 6 36]
let six_in_4 = forms 4 [1 1 1 1, 1 2 4 8, 1 3 9 27, 1 4 16 64, 1 5 25 125, 1 6 36 216]
let six_in_5 = forms 5 [1 0 0 0 0, 0 1 0 0 0, 0 0 1 0 0, 0 0 0 1 0, 0 0 0 0 1, 1 1 1 1 1]
free four_in_3
free six_in_3
free six_in_4
free six_in_5
resolve four_in_3
resolve six_in_3
resolve six_in_4
resolve six_in_5
