import __strict__
import rates
BASE = 1000
