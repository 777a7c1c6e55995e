"""What is billed, and when it is due."""
import __static__
import currency
import payments
from db import RETRIES

DUE_DAYS = 14
VAT = 19
