# All orders of some items, and all parts of a list.
def orders(items):
    if not items: return [[]]
    out = []
    for i in range(len(items)):
        for rest in orders(items[:i] + items[i + 1:]): out.append([items[i]] + rest)
    return out
def parts(items):
    if not items: return [[]]
    out = parts(items[1:])
    for p in out[:]: out.append([items[0]] + p)
    return out
print(orders([1, 2, 3]), len(orders('abcde'.split('x') + [1, 2, 3])))
print(parts(['a', 'b', 'c']))
