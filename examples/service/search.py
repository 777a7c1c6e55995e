import __static__
import db
import legacy
