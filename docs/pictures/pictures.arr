# The arrangements of the pictures here: type B in rank 3, and six general hyperplanes in four variables.
#   arrange-draw lines docs/pictures/pictures.arr B3 --title "Type B in rank 3" -o docs/pictures/lines.svg
#   arrange-draw lattice docs/pictures/pictures.arr B3 --title "Type B in rank 3" -o docs/pictures/lattice.svg
#   arrange-draw betti docs/pictures/pictures.arr G --title "Six general hyperplanes in four variables" -o docs/pictures/betti.svg
field 31
let B3 = typeB 3
let G = forms 4 [1 0 0 0, 0 1 0 0, 0 0 1 0, 0 0 0 1, 1 1 1 1, 1 2 3 4]
