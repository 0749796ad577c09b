# Names, items and arguments share one list or dict.
a = [1]
b = a
c = [a, a]
b.append(2)
c[1] += [3]
print(a, b, c)
a = a + [4]
a.append(5)
print(a, b, c)
def grow(x, d):
    x += [9]
    d['seen'] = x
    x = [0]
    x.append(1)
    return x
d = {}
print(grow(b, d), b, d, d['seen'] == b)
b.clear()
print(c, d)
e = [[0]] * 3
e[0][0] = 'all'
print(e)
f = e[:]
f[0] = 'one'
print(e, f)
x = [1, 2]
y = x
y += y
print(x, y)
