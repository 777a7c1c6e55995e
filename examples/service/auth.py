import __static__
from typing import Optional
from __static__ import int64, cast as to
import sessions as store
from models import USER

HASH_ROUNDS = 12
