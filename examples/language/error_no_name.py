# A name without a value.
x = 1
print(x)
print(y)
