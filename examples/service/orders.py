import __strict__
from models import ORDER
import invoices

OPEN = 0
PAID = 1
