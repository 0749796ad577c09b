# Ranges with one, two and three numbers.
def listed(a, b, c):
    out = []
    for i in range(a, b, c): out.append(i)
    return out
for i in range(3): print(i)
for i in range(2, 5): print(i)
for i in range(-2): print('never')
print(listed(0, 10, 4), listed(3, 0, -1), listed(5, 0, -2), listed(0, 5, -1), listed(5, 0, 1), listed(-3, 3, 2), listed(3, -4, -3))
print(listed(True, 3, True), listed(0, 1, 100), listed(0, -1, -100))
n = 3
for i in range(n):
    n = 0
    i = i * 10
    print(i)
for i in (range(2)): print(i)
r = range
for i in r(1): print(i, r)
big = 170141183460469231731687303715884105727
for i in range(big - 2, big): print(i)
for i in range(-big, -big - 1, -5): print(i)
