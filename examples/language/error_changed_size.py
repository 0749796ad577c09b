d = {1: 1}
for k in d:
    print(k)
    d[k + 1] = 1
