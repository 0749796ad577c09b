x = 5
x -= 2
print(x)
x -= "a"
