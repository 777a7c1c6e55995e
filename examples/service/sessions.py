import __strict__
import cache, cookies

IDLE_MINUTES = 20
