# What is evaluated in which order, and how often.
def v(x):
    print('value', x)
    return x

def change(d):
    d['n'] = d['n'] + 1
    return d['n']

print(v(1) + v(2) * v(3))
print([v(1), v(2)], {v('a'): v(1), v('b'): v(2)})
print(v(1) < v(3) < v(2) < v(9), v(1) < v(2) <= v(2))
print(v(0) or v('') or v(2) or v(3), v(1) and v([]) and v(3))
print(v(1) if v(0) else v(2), v([5, 6])[v(1)], v('abcd')[v(1):v(3)])
d = {'n': 0}
v(d)[v('k')] = v(5)
a = [10, 20, 30]
v(a)[v(0)] += v(1)
a[change(d)] += change(d)
print(a, d)
del v(a)[v(0)]
v(a).append(v(7))
print(a, v(len)(v('abc')))
