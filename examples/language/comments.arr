# A point off three planes, asked for twice.

field 031   # the field with 31 elements
	let planes = forms 3 [1 0 0, 0 1 0, 1-1-1]
point planes
point planes