# 11 is a prime, and not one of the listed ones.
field 11
