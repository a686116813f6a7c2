# All sums of different variables, in 4 variables: the resonance arrangement, whose chambers are counted 2, 6, 32, 370, 11292.
# H. Kamiya, A. Takemura, H. Terao, Ranking patterns of unfolding models of codimension one, Adv. Appl. Math. 47 (2011).
# The rows are those of notTame in the library of the Macaulay2 package HyperplaneArrangements (G. Denham, G. G. Smith).
# Known: characteristic polynomial (t - 1)(t - 4)(t^2 - 10t + 26), so 370 chambers, and it is not free.
field 31
let sums = forms 4 [1 0 0 0, 0 1 0 0, 0 0 1 0, 0 0 0 1, 1 1 0 0, 1 0 1 0, 1 0 0 1, 0 1 1 0, 0 1 0 1, 0 0 1 1, 1 1 1 0, 1 1 0 1, 1 0 1 1, 0 1 1 1, 1 1 1 1]
rank sums
characteristic sums
flats sums
point sums
free sums
