for i in [2, 1, 0]:
    print(6 // i)
