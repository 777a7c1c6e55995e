import __strict__
VAT = 20
