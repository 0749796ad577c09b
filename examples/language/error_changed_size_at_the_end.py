d = {1: 1, 2: 2}
for k in d:
    print(k)
    if k == 2: del d[1]
