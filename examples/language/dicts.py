# Dicts: order, spelling of keys, methods, stores and deletions.
d = {'b': 1, 'a': 2, None: 3, 4: 'd'}
print(d, len(d), d['b'], d[None], d[4])
d['b'] = [1]
d['c'] = 5
d['b'].append(2)
print(d)
del d['b']
d['b'] = 'last'
print(d, d.get('b'), d.get('x'), d.get('x', 0), d.get(None, 0))
print(d.pop('a'), d)
e = {True: 'one', 0: 'zero'}
e[1] = 'uno'
e[False] = 'nil'
print(e, e[True], e[0], {1: 'a', True: 'b', 1: 'c'}, {0: 1, False: 2})
del e[1]
e[1] = 'back'
print(e, 1 in e, True in e, 2 in e)
for k in d: print(k, d[k])
for k in d: d[k] = 0
print(d, {}, {'a': {}, 'b': {'c': []}}, {'x': 1, 'y': 2,})
f = d
d.clear()
print(f, not f, f == {})
