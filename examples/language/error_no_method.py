a = []
a.append(1)
print(a)
a.push(print("never"))
