x = 1
def f():
    print("in f")
    y = x
    x = 2
f()
