import sys


def main(n):
    size = n * n
    a = [None] * size
    b = [None] * size
    i = 0
    while i < size:
        a[i] = i
        b[i] = i * 3
        i = i + 1
    total = 0
    i = 0
    while i < n:
        left = i * n
        j = 0
        while j < n:
            cell = 0
            k = 0
            right = j
            while k < n:
                cell = cell + a[left + k] * b[right]
                right = right + n
                k = k + 1
            total = total + cell
            j = j + 1
        i = i + 1
    print(total)


main(int(sys.argv[1]))
