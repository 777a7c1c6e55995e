"""The service: its routes over its database."""
import __strict__
from config import PORT, WORKERS
import db
import emails
import health
import routes
