import sys


def inner(s, n):
    return s + n


def outer(s, n):
    s = inner(s, n)
    return inner(s, n)


def main(n):
    s = 0
    while n > 0:
        s = outer(s, n)
        n = n - 1
    print(s)


main(int(sys.argv[1]))
