# Six queens on a board, by going back.
def free(rows, col):
    row = len(rows)
    for r in range(row):
        c = rows[r]
        if c == col or c - col == row - r or col - c == row - r: return False
    return True
def place(rows, n, found):
    if len(rows) == n:
        found.append(rows[:])
        return
    for col in range(n):
        if free(rows, col):
            rows.append(col)
            place(rows, n, found)
            rows.pop()
found = []
place([], 6, found)
print(len(found), found)
for col in found[0]: print('.' * col + 'Q' + '.' * (5 - col))
