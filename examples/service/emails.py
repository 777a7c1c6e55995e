import __strict__
from locales import EN as DEFAULT, DE, FR
from __host__ import SMTP_HOST, SMTP_PORT as PORT
