"""The kinds of rows, as the database numbers them."""
from __future__ import annotations
import __static__

USER = 1
ORDER = 2
INVOICE = 3
ITEM = 4
