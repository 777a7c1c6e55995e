import __strict__
import right
