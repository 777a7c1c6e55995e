import __static__

EUR = 978
USD = 840
GBP = 826
DIGITS = 2
