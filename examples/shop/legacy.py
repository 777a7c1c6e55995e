"""no marker: left alone"""
print("hi")
