import sys


def main(n):
    s = 0
    turns = 0
    while n > 0:
        save = s, n
        s = s + n
        n = n - 1
        if not s < 5000000:
            s, n = save
            s = s - s
            n = n - 1
            turns = turns + 1
    print(s, turns)


main(int(sys.argv[1]))
