# Numbers as texts to any base, and texts as numbers.
digits = '0123456789abcdef'
def shown(n, base):
    if n < 0: return '-' + shown(-n, base)
    return digits[n] if n < base else shown(n // base, base) + digits[n % base]
def place(c):
    for i in range(len(digits)):
        if digits[i] == c: return i
def read(t, base):
    n = 0
    for c in t: n = n * base + place(c)
    return n
for n in [0, 1, 255, -255, 1000000, 170141183460469231731687303715884105727]:
    print(n, shown(n, 2), shown(n, 10), shown(n, 16))
print(read('ff', 16), read('101', 2), read(shown(123456789, 7), 7), int(shown(98765, 10)) == 98765)
