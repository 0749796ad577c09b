d = {None: 1, 5: 2}
print(d.pop(None))
d.pop(True)
