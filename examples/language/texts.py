# Texts: joining, repeating, indexes by characters, slices, methods.
t = 'aé€😀z'
print(len(t), t[0], t[1], t[-1], t[-2], t[1:3], t[:2], t[3:], t[:], t[-2:], t[:-2], t[-9:2], t[2:99], t[3:1] == '')
print('ab' + 'cd', 'ab' * 3, 2 * 'x' + 'y', '-' * 0 == '', 'a' * -1 == '', 'ab' * True)
print(', '.join(['a', 'b', 'c']), ''.join([]) == '', '-'.join(['x']), '<>'.join(['', 'é', '']))
print('a,b,,c'.split(','), ''.split(','), ','.split(','), 'aaa'.split('aa'), 'ababab'.split('ab'), 'a--b-c'.split('--'))
print('abc'.startswith('ab'), 'abc'.startswith(''), 'abc'.startswith('abcd'), 'abc'.endswith('bc'), 'abc'.endswith('ab'), 'é'.endswith('é'))
def reversed_text(t):
    out = ''
    for c in t: out = c + out
    return out
print(reversed_text('notebook'), reversed_text('aé😀'))
def counted(t):
    counts = {}
    for c in t: counts[c] = counts.get(c, 0) + 1
    return counts
print(counted('mississippi'))
print('one two  three'.split(' '), '|'.join('a b c'.split(' ')))
u = t
u += '!'
u *= 2
print(u, t)
