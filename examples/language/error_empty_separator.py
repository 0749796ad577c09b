print("a b".split(" "))
"a".split("")
