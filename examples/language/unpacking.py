# Unpacking of lists, tuples, texts and dicts, into names and items.
a, b = 1, 2
print(a, b)
a, b = b, a
print(a, b)
x, y, z = 'abc'
print(z, y, x)
k, l = {'one': 1, 'two': 2}
print(k, l)
c, = [7]
print(c)
d = {}
i = 0
i, d[i] = 1, 2
print(i, d)
n = [0, 0]
n[0], n[1] = n[1] + 5, n[0] + 6
print(n)
for key, held in [('a', 1), ('b', [2]), 'cd']:
    print(key, held)
for r, in [[1], (2,)]:
    print(r)
for first, second in ((1, 2), (3, 4)):
    print(first + second)
pairs = []
for at in range(3):
    pairs.append((at, at * at))
for base, square in pairs:
    print(base, square)
print(pairs)
def both(u, v):
    least, most = u, v
    if most < least:
        least, most = most, least
    return least, most
low, high = both(9, 4)
print(low, high)
def count(l):
    global total
    total, l[0] = len(l), 'changed'
    return total,
m = [1, 2, 3]
print(count(m), total, m)
fib = 0, 1
for turn in range(10):
    e, f = fib
    fib = f, e + f
print(fib)
