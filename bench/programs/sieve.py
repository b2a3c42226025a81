import sys


def main(n):
    count = 0
    cells = [None] * n
    i = 0
    while i < n:
        cells[i] = True
        i = i + 1
    i = 2
    while i < n:
        if cells[i]:
            count = count + 1
            j = i + i
            while j < n:
                cells[j] = False
                j = j + i
        i = i + 1
    print(count)


main(int(sys.argv[1]))
