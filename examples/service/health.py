import __strict__
import cache, db, queues
