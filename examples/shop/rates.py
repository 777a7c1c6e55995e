import __static__
SIZE = 3
RATE=2
