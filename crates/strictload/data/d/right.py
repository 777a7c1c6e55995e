import __strict__
import left
