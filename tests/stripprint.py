#!/usr/bin/env python3
"""Requests for the program `stripprint`, and what it must write for a request, by the model of the rules.

    stripprint.py < REQUEST     prints the picture, if the request asks for one
    stripprint.py --sample      prints the sample request
"""
import random
import sys
from itertools import product

import model
from model import MOST_HEIGHT, MOST_WIDTH, number

LONG = 26  # bytes of a request
BUFFER = 65536  # bytes that the program reads


def request(k, n, place, width, height):
    return bytes((k, n)) + number(place) + number(width) + number(height)


SAMPLE = request(2, 4, 4, 75, 2)


def widths():
    """Widths that fill lines, one more and one less; from the strip's start and round its end."""
    for n in (1, 2, 6, 33, 60):
        for place, width, height in product((0, 2**n - 1), (1, 69, 70, 71, 139, 140, 141, 1000), (1, 2, 9)):
            yield request(2, n, place, width, height)


def large():
    """The widest and the highest, round the end of a long strip, and round a short one many times."""
    for n, place, width, height in ((60, 2**60 - 30000, MOST_WIDTH, 1), (60, 2**60 - 1, 59999, 2), (3, 5, MOST_WIDTH, MOST_HEIGHT), (16, 65000, 70, MOST_HEIGHT)):
        yield request(2, n, place, width, height)


def refused():
    """1, 12, 4 and 13, alone and together; also numbers of which a higher byte matters."""
    sizes = ((1, 1), (0, 1), (1, 0), (MOST_WIDTH + 1, 1), (1, MOST_HEIGHT + 1), (2**16 + 1, 1), (1, 2**8 + 1), (2**56 + 1, 1), (1, 2**56 + 1), (2**64 - 1, 2**64 - 1))
    for (k, n), place, (width, height) in product(((2, 4), (3, 4), (1, 4), (0, 0), (37, 1), (2, 61), (255, 255)), (0, 15, 16, 2**56, 2**64 - 1), sizes):
        yield request(k, n, place, width, height)


def every_length(chance):
    """Every count of bytes up to 60: a good request cut or with bytes behind it, and junk; and inputs longer than the buffer."""
    good = request(2, 4, 4, 5, 2)
    for size in list(range(61)) + [BUFFER - 1, BUFFER, BUFFER + 1, BUFFER + LONG, 200000]:
        yield good[:size].ljust(size, b"\0")
        yield (good * (size // LONG + 1))[:size]
        yield chance.randbytes(size)


def random_requests(chance):
    for _ in range(300):
        n = chance.randint(1, 60)
        good = request(2, n, chance.randrange(2**n), chance.randint(1, 300), chance.randint(1, 5))
        yield good
        changed = bytearray(good)
        changed[chance.randrange(LONG)] ^= 1 << chance.randrange(8)
        yield bytes(changed)


def inputs():
    """A label, the request, and what must be written for it; some get a picture, some nothing."""
    chance = random.Random(20261116)
    kinds = {"sample": [SAMPLE], "width": widths(), "large": large(), "refused": refused(), "length": every_length(chance), "random": random_requests(chance)}
    for kind, requests in kinds.items():
        for i, one in enumerate(requests):
            yield "%s %d" % (kind, i), one, model.stripprint(one)


if __name__ == "__main__":
    sys.stdout.buffer.write(SAMPLE if sys.argv[1:] == ["--sample"] else model.stripprint(sys.stdin.buffer.read()))
