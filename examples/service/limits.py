import __strict__
from config import MAX_BODY, REQUEST_TIMEOUT

PER_MINUTE = 60
REQUEST_TIMEOUT = 10
