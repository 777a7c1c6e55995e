import __strict__

min = 0
max = 99
