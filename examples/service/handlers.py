import __static__
from models import USER
from routes import OK

PING = 1


def ping(user: int) -> int:
    return OK
