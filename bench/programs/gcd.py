import sys


def main(n):
    total = 0
    i = 1
    while i <= n:
        a = n
        b = i
        while a != b:
            if a < b:
                b = b - a
            else:
                a = a - b
        total = total + a
        i = i + 1
    print(total)


main(int(sys.argv[1]))
