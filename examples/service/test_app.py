import __strict__
import app
from app import routes
from config import PORT as DEFAULT_PORT
from routes import NOT_FOUND, OK

TEST_PORT = 8081
