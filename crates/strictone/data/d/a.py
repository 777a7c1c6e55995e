import __strict__
X = 1
