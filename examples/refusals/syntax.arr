field 31
let A = forms 2 [1 0, 0
point A
