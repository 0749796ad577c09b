# Lists and dicts that hold themselves.
a = [1]
a.append(a)
d = {'a': a}
d['d'] = d
print(a, d)
a.append(d)
print(a)
print(d, str(a), repr([a, a]))
print(len(a), a[1][1][1][0], d['d']['d']['a'][0])
b = []
print([b, b], {1: b, 2: b})
a[0] = a
a[0] += ['end']
print(a, a[0][0][3])
