import __strict__
import config
from models import ITEM as LAST_KIND

POOL_SIZE = 16
RETRIES = 3
