import sys


def main(n):
    s = 0
    while n > 0:
        s = s + n
        n = n - 1
    print(s)


main(int(sys.argv[1]))
