import __strict__
from locales import EN

PAGE_SIZE = 25
LAST_PAGE = 400
