# Roman numerals, there and back.
signs = [[1000, 'M'], [900, 'CM'], [500, 'D'], [400, 'CD'], [100, 'C'], [90, 'XC'], [50, 'L'], [40, 'XL'], [10, 'X'], [9, 'IX'], [5, 'V'], [4, 'IV'], [1, 'I']]
def roman(n):
    out = ''
    for s in signs:
        out += s[1] * (n // s[0])
        n %= s[0]
    return out
def number(t):
    n = 0
    for s in signs:
        while t.startswith(s[1]):
            n += s[0]
            t = t[len(s[1]):]
    return n if t == '' else None
for n in [1, 4, 9, 14, 40, 90, 400, 1987, 2026, 3999]: print(n, roman(n), number(roman(n)) == n)
print(number('IIX'), number(''))
