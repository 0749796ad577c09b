# Lists that change while they are gone over.
a = [1, 2, 3]
for x in a:
    if len(a) < 6: a.append(x * 10)
print(a)
for x in a: print(x, a.pop())
print(a)
b = [1, 2, 3, 4]
for x in b:
    print(x)
    del b[0]
print(b)
c = [1, 2]
for x in c:
    c = [7, 8, 9]
    print(x)
print(c)
e = [1, 2, 3]
for x in e:
    e[2] = 'new'
    print(x)
f = [1]
for x in f:
    if x < 5: f += [x + 1]
print(f)
for x in f:
    for y in f:
        if x == y: f[0] = x
print(f)
t = 'ab'
for c in t: t += c
print(t)
d = {'a': 1, 'b': 2}
for k in d: d[k] += 10
print(d)
for k in d:
    d['c'] = 3
    break
print(d)
