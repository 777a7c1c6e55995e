import __strict__
import auth
import billing
import pages

OK = 200
NOT_FOUND = 404
