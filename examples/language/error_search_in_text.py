print("a" in "abc")
1 in "abc"
