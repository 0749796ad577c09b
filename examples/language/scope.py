# Locals, globals and built-in functions.
x = 'session'
def own():
    x = 'local'
    return x
def reads(): return x
def writes():
    global x
    x = 'written'
    return x
def by_for():
    for x in [1, 2]: pass
    return x
def parameter(x):
    x = x + '!'
    return x
print(own(), reads(), by_for(), parameter('p'), x)
print(writes(), reads(), x)
def rebinds():
    global x, y
    for y in [1, 2]: x = y
    del y
rebinds()
print(x)
def count():
    global n
    n += 1
    return n
n = 0
print(count() + count() * 10, n)
def deletes(a):
    del a
    a = 2
    return a
print(deletes(1))
def later(): return defined_later
defined_later = 5
print(later())
def hides(len): return len + 1
print(hides(1), len('abc'))
len = 3
print(len)
del len
print(len('abc'))
def deep(n):
    m = n
    if n > 0: deep(n - 1)
    return m
print(deep(5))
