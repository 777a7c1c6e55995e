import __strict__
from prices import BASE
from rates import VAT
TOTAL = 1200
