import __static__
from currency import DIGITS, EUR

FEE = 35
FEE = 40  # since March
