import __strict__

LIGHT = 0
	DARK = 1
