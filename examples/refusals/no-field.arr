# A limit may be set before a field is chosen, and nothing else may come before it.
limit pairs 5000
let A = boolean 2
