import __strict__
from models import INVOICE
from orders import PAID

FIRST_NUMBER = 1000
