# print, len, str, repr and int.
print()
print('')
print('a', "it's", ["it's", 'b'], {'k': 'v'}, None, True, -5)
print(print('inner'))
print(len('abc'), len(''), len([1, [2]]), len({1: 2}), len('é😀'))
print(str(12), str('a'), str([1, 'a']), str(None), str(True), str({1: 'b'}), str(-7) + '!')
print(repr(12), repr('a'), repr([1, 'a']), repr("it's"), repr(repr('a')))
print(int(5), int(True), int(False), int('12'), int('-12'), int('+12'), int('007'), int('  42  '), int('\t\n42\r\n'), int('-0'))
print(int('170141183460469231731687303715884105727'), int('-170141183460469231731687303715884105728'))
print(print, len, repr, str, int, range, [str, len])
f = len
p = print
p(f('abc'), f == len, f == print, p in [print])
print([str, int][1]('5') + 1, {'i': int}['i']('6'))
