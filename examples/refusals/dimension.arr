field 31
let A = forms 11 []
