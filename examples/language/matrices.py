# Products and powers of matrices.
def product(a, b):
    out = []
    for row in a:
        new = []
        for j in range(len(b[0])):
            total = 0
            for k in range(len(b)): total += row[k] * b[k][j]
            new.append(total)
        out.append(new)
    return out
def power(a, n):
    out = [[1, 0], [0, 1]]
    while n:
        if n % 2: out = product(out, a)
        a = product(a, a)
        n //= 2
    return out
print(product([[1, 2], [3, 4]], [[5, 6], [7, 8]]))
print(power([[1, 1], [1, 0]], 80), power([[2, 0], [0, -1]], 7))
print(product([[1, 2, 3]], [[1], [2], [3]]), [[1, 2]] * 2)
