# A limit on pairs is at most 1,000,000, and one on degree at most 240.
limit pairs 1000000
limit degree 241
