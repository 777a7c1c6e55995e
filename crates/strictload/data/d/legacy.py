NAME = "not strict"
