int("it's\n")
