import sys


def safe(queens, row, column):
    k = 0
    while k < row:
        away = column - queens[k]
        distance = row - k
        if away == 0 or away == distance or -away == distance:
            return False
        k = k + 1
    return True


def main(n):
    count = 0
    queens = [None] * n
    row = 0
    column = 0
    while True:
        while column < n and not safe(queens, row, column):
            column = column + 1
        if column < n:
            queens[row] = column
            row = row + 1
            column = 0
            if row < n:
                continue
            count = count + 1
        row = row - 1
        if row < 0:
            break
        column = queens[row] + 1
    print(count)


main(int(sys.argv[1]))
