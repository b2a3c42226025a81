import sys


def main(n):
    c = 'a'
    vowels = 0
    while n > 0:
        x = ord(c)
        x = x + 7
        c = chr(x)
        if c > 'z':
            x = x - 26
            c = chr(x)
        if c == 'a' or c == 'e' or c == 'i' or c == 'o' or c == 'u':
            vowels = vowels + 1
        n = n - 1
    print(vowels, c)


main(int(sys.argv[1]))
