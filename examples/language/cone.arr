# The cone over the lines x = 0, x = 1 and y = 2 of the plane: the last coordinate stands behind them.
field 7
let C = cone 2 [1 0 0, 1 0 -1, 0 1 -2]
hyperplanes C
point C
rank C
flats C
