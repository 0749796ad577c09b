a = [1, 2]
print(a.pop(-2), a)
a.pop(1)
