# Functions: arguments, returns, recursion, functions as values.
def fact(n):
    return 1 if n < 2 else n * fact(n - 1)
def fib(n):
    if n < 2: return n
    return fib(n - 1) + fib(n - 2)
def nothing(): pass
def early(x):
    if x: return
    print('not early')
def even(n): return True if n == 0 else odd(n - 1)
def odd(n): return False if n == 0 else even(n - 1)
print(fact(5), fact(30), fib(15), nothing(), early(1), early(0), even(50), odd(7))
def twice(f, x,): return f(f(x))
def inc(n): return n + 1
print(twice(inc, 5), [inc, fact][1](4), {'f': inc}['f'](1))
g = inc
def inc(n): return n + 100
print(g(1), inc(1), g == inc, g == g, [g] == [g], inc in [g, inc])
def hanoi(n, a, b, c, moves):
    if n == 0: return moves
    hanoi(n - 1, a, c, b, moves)
    moves.append(a + c)
    return hanoi(n - 1, b, a, c, moves)
print(hanoi(3, 'A', 'B', 'C', []))
def gcd(a, b):
    while b:
        c = a % b
        a = b
        b = c
    return a
print(gcd(12, 18), gcd(17, 5), gcd(0, 3))
def flat(x, out):
    for y in x:
        if y == [] or str(y)[0] == '[': flat(y, out)
        else: out.append(y)
    return out
print(flat([1, [2, [3, []], 4], [[5]]], []))
