#!/usr/bin/env python3
"""What the program `strides` must print: a million steps from the start of three strips, the sum of the marks and the words passed xored."""
from model import Counted

STEPS = 1000000
STRIPS = ((2, 60), (4, 30), (36, 11))


def stride(k, n):
    strip, word, left, total, mix = Counted(k, n), (0,), STEPS, 0, 0
    while left > 0:
        read = word[:left]
        total, left = total + sum(read), left - len(read)
        if len(read) == len(word):
            word, passed = strip.following(word)
            mix ^= passed
    return total, mix


if __name__ == "__main__":
    for strip in STRIPS:
        print(*stride(*strip))
