# A circle of four edges. The least point colours the ends of each edge differently.
field 7
let G = graphic 4 [1-2 2-3 3-4 4-1]
hyperplanes G
point G
rank G
flats G
