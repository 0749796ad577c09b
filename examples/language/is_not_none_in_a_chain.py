# The operand after `is not None` in a chain is that None.
y = 1
print(y is not None == None, y is not None in [None], y is not None is None, y is not None is not None)
y is not None < 3
