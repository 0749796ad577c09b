print(7 % 2)
7 % False
