import __strict__

EMAILS = 0
EXPORTS = 1
REPORTS = \
    2
