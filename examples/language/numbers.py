# Arithmetic: precedence, signs, floors and remainders of every mix of signs.
print(1 + 2 * 3 - 4, (1 + 2) * 3 - 4, 2 - 3 - 4, 2 - (3 - 4))
for a in [7, -7, 6, -6, 0]:
    for b in [3, -3, 1, -1]:
        print(a, b, a // b, a % b, a // b * b + a % b == a)
print(100 // 7 % 4 * 2, -2 * -3, --5, -+-5, 1_000_000 * 1_000_000)
print(170141183460469231731687303715884105727 - 1, -170141183460469231731687303715884105727 - 1)
print(True + True, True * 3, -True, False - 1, 7 // True, 5 % (True + 1))
