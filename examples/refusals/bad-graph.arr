# The third edge joins what the first joins.
field 31
let G = graphic 3 [1-2 2-3 2-1]
