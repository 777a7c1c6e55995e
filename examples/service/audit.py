import __strict__
import db
import confg

KEEP_DAYS = 90
