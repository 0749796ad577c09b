d = {1: 2}
print(d)
d[[]] = 3
print(d)
