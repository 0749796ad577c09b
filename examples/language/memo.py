# A table of what is known, kept in a session's name.
table = {}
calls = 0
def fib(n):
    global calls
    calls += 1
    if n in table: return table[n]
    if n < 2: found = n
    else: found = fib(n - 1) + fib(n - 2)
    table[n] = found
    return found
print(fib(90), calls, len(table), table[50])
