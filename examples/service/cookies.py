import __strict__
from config import DEBUG, MAX_BODY

MAX_AGE = (
    86_400  # a day
)
