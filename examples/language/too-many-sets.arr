# Four lines of a plane have four circuits, of three lines each, and 1 + 4 + 3 sets without broken circuit. Type B in rank 7
# has 645,120 of these sets, which is above the limit; that is an answer, and the script goes on.
field 101
let G = forms 2 [1 0, 1 1, 1 2, 1 3]
circuits G
nbc G
let B = typeB 7
nbc B
circuits B
rank B
