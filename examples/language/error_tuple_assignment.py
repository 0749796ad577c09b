t = (1, [])
t[1].append(2)
print(t)
t[0] = 3
