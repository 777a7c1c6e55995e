import __strict__
from __host__ import CACHE_URL

TTL = 300
SLOTS = 0x400
