import __strict__
DOOR = 120
WALL = 450
DOOR = 125
