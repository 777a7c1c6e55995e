import __strict__  # the languages, by their numbers

EN = 0
DE = 1
FR = 2
