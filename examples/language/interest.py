# A table with columns, of whole cents.
def padded(t, n): return ' ' * (n - len(t)) + t
def money(cents):
    rest = str(cents % 100)
    return str(cents // 100) + '.' + '0' * (2 - len(rest)) + rest
balance = 100000
for year in range(1, 11):
    gain = balance * 35 // 1000
    balance += gain
    print(padded(str(year), 3), padded(money(gain), 8), padded(money(balance), 10))
