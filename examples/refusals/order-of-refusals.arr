# Form 4 is zero and form 2 repeats form 1: the zero form is named, for it comes first in the table. What stands behind is not run.
field 7
let A = boolean 2
point A
let B = forms 2 [1 2, 2 4, 0 1, 7 -7]
point A
