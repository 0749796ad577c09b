# The longest run of 3n + 1 below a limit, with what is known by now.
known = {1: 1}
def length(n):
    if n in known: return known[n]
    found = 1 + length(n // 2 if n % 2 == 0 else 3 * n + 1)
    known[n] = found
    return found
best = 0
for n in range(1, 1000):
    if length(n) > best:
        best = length(n)
        print(n, best)
print(len(known))
