# a script may be empty
