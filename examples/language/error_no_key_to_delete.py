d = {1: 1}
del d[1]
print(d)
del d[1]
