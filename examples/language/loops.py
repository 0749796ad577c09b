# `for` and `while` with `break` and `continue`, over every kind of source.
for x in [1, 'a', None, [2]]: print(x)
for c in 'aé😀': print(c, len(c))
for k in {'b': 1, 'a': 2}: print(k)
for x in []: print('never')
for x in '': print('never')
for x in {}: print('never')
i = 0
while True:
    i += 1
    if i % 2: continue
    if i > 8: break
    print(i)
while i: i -= 3 if i > 2 else i
print(i)
for i in range(2):
    for j in range(3):
        if j == 1: break
        print(i, j)
for x in [1, 2, 3]: x = x * 10
print(x, i, j)
def first(rows, least):
    for row in rows:
        for x in row:
            while x > least:
                return x
    return None
print(first([[1, 2], [3, 4]], 2), first([], 0))
