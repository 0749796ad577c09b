# Some turns of the game of life on a small board.
def turn(board):
    n = len(board)
    new = []
    for i in range(n):
        row = []
        for j in range(n):
            around = 0
            for di in range(-1, 2):
                for dj in range(-1, 2):
                    if di or dj: around += board[(i + di) % n][(j + dj) % n]
            row.append(1 if around == 3 or around == 2 and board[i][j] else 0)
        new.append(row)
    return new
board = []
for i in range(8): board.append([0] * 8)
for cell in [[0, 1], [1, 2], [2, 0], [2, 1], [2, 2]]: board[cell[0]][cell[1]] = 1
for i in range(4): board = turn(board)
for row in board:
    line = ''
    for x in row: line += '#' if x else '.'
    print(line)
