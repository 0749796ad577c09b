# if, elif, else, pass, del and blocks on one line.
def size(x):
    if x < 0: return 'negative'
    elif x == 0:
        return 'zero'
    elif x < 10: return 'small'
    else:
        return 'big'
for x in [-1, 0, 5, 50]: print(x, size(x))
if None:
    print('no')
elif []:
    print('no')
else:
    if 'a': print('yes')
    else: print('no')
pass
x = 1
y = x
del x
print(y)
if y: pass
else: print('no')
a = [1, 2, 3]
d = {'k': [1, 2]}
del a[0]
del d['k'][-1]
del a[-1]
print(a, d)
# a comment between blocks
def g():
        # deeper than needed
        return 'g'   # and after a statement

print(g())
print((1 +
  2), [
      3,
], {
  'a': 4 })
