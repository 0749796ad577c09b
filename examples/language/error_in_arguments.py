def f(a, b): print("never")
print("first")
f(print("second"), missing)
