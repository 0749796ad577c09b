for i in range(2): print(i)
for i in range(0, 2, 0): print(i)
