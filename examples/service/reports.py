"""What is told once a month."""
import __strict__
import billing
import audit
from orders import PAID
