import sys


def fibonacci(n):
    if n < 2:
        return n
    x = fibonacci(n - 1)
    y = fibonacci(n - 2)
    return x + y


def main(n):
    print(fibonacci(n))


main(int(sys.argv[1]))
