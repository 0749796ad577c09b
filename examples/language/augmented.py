# Augmented assignments of names and items.
x = 7
x += 3
x -= 4
x *= 5
x //= 4
x %= 4
print(x)
t = 'a'
u = t
t += 'b'
t *= 3
print(t, u)
a = [1, [2], 'x']
b = a[1]
a[0] += 1
a[1] += [3]
a[-1] += 'y'
a[0] *= 10
a[0] -= 5
a[0] //= 2
a[0] %= 5
print(a, b)
d = {'n': 1, 'l': b, True: 2}
d['n'] *= 5
d['l'] += [4]
d[1] += 1
print(d, b)
def f():
    print('once')
    return 0
a[f()] += f() + 1
print(a)
n = [0]
def g():
    n.append(5)
    return 10
n[0] += g()
print(n)
i = 2
i *= -3
i //= 4
print(i, i % 5)
