# A script has one field. The same field again is refused too.
field 31
field 31
