import sys


def main(n):
    steps = 0
    i = 1
    while i <= n:
        x = i
        while x > 1:
            steps = steps + 1
            half = x // 2
            if half * 2 == x:
                x = half
            else:
                x = x * 3
                x = x + 1
        i = i + 1
    print(steps)


main(int(sys.argv[1]))
