# What counts as true, and the operands that `and` and `or` give.
values = [None, False, True, 0, 1, -1, '', 'a', [], [0], {}, {0: 0}]
for v in values:
    print(v, not v, v and 'yes', v or 'no', 'true' if v else 'false')
print(0 or '' or [] or 'last', 1 and 'a' and [2], 0 or 1 and 2, not 0 and 1)
print(not not 5, not None is None, 1 if 0 else 2 if 0 else 3)
