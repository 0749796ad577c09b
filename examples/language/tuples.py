# Tuples: displays, what they share with lists, and what they hold.
t = (1, 'a', [2])
print(t, (), (1,), ((),), (1, 2)[0], len(t), len(()))
print(t[0], t[-1], t[1:], t[:1], t[5:], t[1:1])
t[2].append(t)
print(t, t[2][1] == t)
u = 1, 2
v = 1,
print(u, v, u + v, u * 2, 2 * v, u * 0, () + u)
w = u
w += v
print(u, w)
w *= 2
print(w)
print(u == (1, 2), u == [1, 2], u != (1, 3), (1, [2]) == (1, [2]), (True, 0) == (1, False))
print(u < (1, 3), u < (1,), () < (0,), (2,) > (1, 9), (1, 2) <= (1, 2), ('a', 1) < ('b', 0))
print(1 in u, 3 in u, [2] in (1, [2]), u in [u], 'a' not in t)
if ():
    print('no')
if (0,):
    print('yes')
print(not (), not (0,))
for x in (1, 'b', (2, 3)):
    print(x)
print(str(u), repr(('x', "it's", 1)), [u, {1: u}])
def swapped(pair):
    return pair[1], pair[0]
print(swapped((1, 2)), swapped(swapped(('a', 'b'))))
s = (1, 2) if u else (3, 4)
print(s, (1, 2, 3,), (1)
)
