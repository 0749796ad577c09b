def f(n): return f(n + 1)
print("down")
f(0)
