# `in` and `not in`, for lists, dicts and texts.
print(2 in [1, 2], 3 in [1, 2], 3 not in [1, 2], [1] in [[1]], True in [1], None in [0], {} in [{}], 1 in [])
print('a' in {'a': 1}, 1 in {'a': 1}, 1 in {True: 1}, None in {}, '' in {'': 0}, 'b' not in {'b': 2})
print('b' in 'abc', '' in 'abc', '' in '', 'abcd' in 'abc', 'ac' in 'abc', 'abc' in 'ababc', 'é' in 'aéb')
vowels = 'aeiou'
found = []
for c in 'education':
    if c in vowels and c not in found: found.append(c)
print(found)
def f(): pass
print(f in [f], len in [str, len], 1 in [2] == [2])
