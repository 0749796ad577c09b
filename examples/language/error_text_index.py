print("abc"[2])
"abc"[3]
