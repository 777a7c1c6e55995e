import __strict__
from models import ODER, USER
from queues import EXPORTS
