# Poincaré and characteristic polynomials that the literature has as products, and of a graph.
# V. I. Arnold, The cohomology ring of the colored braid group, Math. Notes 5 (1969): type A in rank r has the Poincaré polynomial
# (1 + t)(1 + 2t)..(1 + rt). E. Brieskorn, Sur les groupes de tresses, LNM 317 (1973): type B in rank r has (1 + t)(1 + 3t)..(1 + (2r - 1)t),
# and type D (1 + t)(1 + 3t)..(1 + (2r - 3)t)(1 + (r - 1)t).
# The characteristic polynomial of a graph's arrangement is its chromatic polynomial; that of the complete bipartite graph with three
# and three vertices is t(t - 1)(t^4 - 8t^3 + 28t^2 - 47t + 31). Its triple is deletion and contraction of an edge.
field 101
let A = typeA 5
let B = typeB 4
let D = typeD 5
let G = graphic 6 [1-4 1-5 1-6 2-4 2-5 2-6 3-4 3-5 3-6]
let big = typeB 7
poincare A
characteristic A
poincare B
characteristic B
poincare D
characteristic D
poincare G
characteristic G
triple G 1
poincare big
