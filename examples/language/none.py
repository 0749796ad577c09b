# `is None` and `is not None`, alone and in chains.
values = [None, 0, False, '', []]
for v in values:
    print(v is None, v is not None, not v is None)
def first(items, test):
    for x in items:
        if x == test: return x
print(first([1, 2], 2), first([1, 2], 5), first([1, 2], 5) is None)
x = None
y = 1
print(x is None is None, 1 < 2 is None, x is None == None, (x is None) == True)
print(None is not None < z)
