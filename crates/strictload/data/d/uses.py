import __strict__
from left import X
