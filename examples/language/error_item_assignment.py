t = "abc"
print(t[0])
t[0] = "x"
