"""What the service is told from outside."""
import __strict__

PORT = 8080
WORKERS = 4
REQUEST_TIMEOUT = 30
MAX_BODY = 1_048_576
DEBUG = 0
