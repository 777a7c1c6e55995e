import __strict__
import currency

EUR_IN_USD = 1.08
