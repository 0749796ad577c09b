# Equality and order of numbers, texts, lists and dicts, and chains.
print(1 < 2 < 3, 1 < 3 < 2, 1 < 2 == 2 != 3, 3 > 2 > 1 >= 1)
print('a' < 'b', 'B' < 'a', '' < 'a', 'ab' < 'abc', 'b' > 'abc', 'z' < 'é' < '€' < '😀')
print([1, 2] < [1, 3], [1, 2] < [1], [] < [0], [2] > [1, 5], [[1], 2] < [[1], 3], ['b'] > ['a', 'z'])
print([1, 2] <= [1, 2], [1, 2] >= [1, 2], [1, 2] > [1, 2], [True] <= [1])
values = [None, True, False, 0, 1, '', '0', [], [0], {}, {0: 0}, print, len]
for x in values:
    row = []
    for y in values:
        row.append(1 if x == y else 0)
    print(row)
print({1: 2, 3: 4} == {3: 4, 1: 2}, {1: 2} == {1: 3}, {1: 2} != {2: 2}, {True: 'a'} == {1: 'a'})
print([1, 'a'] == [1, 'a'], [1] < [1, 'a'], [{}, 1] < [{}, 2], {'a': {'b': [1]}} == {'a': {'b': [1]}})
a = []
a.append(a)
print([a] == [a], a in a, a == a)
