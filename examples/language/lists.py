# Lists: indexes, slices, methods, stores and deletions.
a = [0, 1, 2, 3, 4]
print(a[0], a[-1], a[True], a[1:3], a[:2], a[3:], a[:], a[-2:], a[:-2], a[-3:-1], a[-9:2], a[2:99], a[3:1], a[99:])
a[0] = 'first'
a[-1] = [5]
a[-1].append(6)
print(a, len(a))
del a[0]
del a[-1]
print(a, a + [9], a * 2, 2 * a, a * 0, [] + [], [None] * 3)
a.append(4)
a.insert(0, 'i')
a.insert(99, 'e')
a.insert(-1, 'm')
a.insert(-99, 's')
print(a, a.pop(), a.pop(0), a.pop(-2), a)
a.extend([7, 8])
a.extend([])
a.extend(a)
print(a)
b = a[:]
a.clear()
print(a, b, a == [], not a)
print([[1, 2], [3, 4]][1][0], [1, 2, 3][-2:][0], [[]] * 2, [1,], [
    1,
    2,  # lines within brackets don't count
])
