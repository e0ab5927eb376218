#!/usr/bin/env python3
"""Words for the program `worksheet`, and the sheet that it must print for a word, by the model of the rules.

    worksheet.py < REQUEST      prints the sheet, or the refusal
    worksheet.py --sample       prints the sample request
"""
import random
import sys
from itertools import product

import model
from model import LARGE, MOST_MARKS, MOST_SHADES, Counted, admitted, divisors, letters, necklace_below, small_strips, smallest_rotation
from vectors import plain, repeated, runs, topped

BUFFER = 65536  # bytes that the program reads


def request(k, n, word):
    return bytes((k, n)) + bytes(word)


SAMPLE = request(2, 6, letters("011010"))


# Words of small strips

def every_word():
    """Also of two larger strips: over 4 and 8 marks some divisors count for nothing."""
    for k, n in small_strips(128) + [(4, 4), (2, 8)]:
        for word in model.words(k, n):
            yield request(k, n, word)


# Words of large strips

STRIPS = LARGE + ((2, 12), (2, 30), (2, 36), (2, 42), (2, 48), (2, 58), (2, 59), (3, 36), (5, 25), (6, 23), (8, 20), (16, 15), (36, 10))


def most_marks(k):
    return max(n for n in range(1, MOST_MARKS + 1) if admitted(k, n))


def every_strip(chance):
    """A word of each strip."""
    for k in range(2, MOST_SHADES + 1):
        for n in range(1, most_marks(k) + 1):
            yield request(k, n, plain(k, n, chance))


def zeros():
    """The running sum goes below zero for many n, over 30 and over 60 marks to -2."""
    for n in range(1, MOST_MARKS + 1):
        for k in (2, max(k for k in range(2, MOST_SHADES + 1) if admitted(k, n))):
            yield request(k, n, (0,) * n)


def beside(k, word, chance):
    """The word, and each with one mark raised or lowered: the first, the last, or another."""
    yield word
    for at in (0, chance.randrange(len(word)), len(word) - 1):
        for mark in (word[at] - 1, word[at] + 1):
            if 0 <= mark < k:
                yield word[:at] + (mark,) + word[at + 1:]


def edge_words(k, n, chance):
    """The first words and the last ones; and words of which lowering changes many marks, as there are only zeros behind a larger mark."""
    top = k - 1
    yield from beside(k, (0,) * n, chance)
    yield from beside(k, (top,) * n, chance)
    yield from beside(k, (0,) + (top,) * (n - 1), chance)
    for front in (0, 1, n // 2, n - 2):
        for mark in (1, top):
            yield (0,) * front + (mark,) + (0,) * (n - 1 - front)
        yield (0,) * front + (top,) * (n - 1 - front) + (0,)


def powers(k, n, chance):
    """A word of each period, which is its smallest rotation, and words beside it."""
    for d in divisors(n):
        yield from beside(k, smallest_rotation(tuple(plain(k, d, chance))) * (n // d), chance)


def large_strips(chance):
    for k, n in STRIPS:
        for word in list(edge_words(k, n, chance)) + list(powers(k, n, chance)):
            yield request(k, n, word)
        for make, _ in product((runs, repeated, plain, topped), range(3)):
            word = tuple(make(k, n, chance))
            yield request(k, n, word)
            yield request(k, n, smallest_rotation(word))


def largest_terms():
    """2^60 and -2^30: there is no larger term, and none further below zero."""
    for k, n in ((2, 60), (4, 30), (32, 12)):
        lines = list(model.sheet(Counted(k, n), (k - 1,) * n))
        assert lines[0] == (n, 2**60, 2**60) and lines[1][:2] == (n // 2, -2**30)
        yield request(k, n, (k - 1,) * n)


def one_more_digit():
    """The first word for which the term of n, or that of n / 2, which is negative, has so many digits, and the one before it."""
    for k, n in ((2, 60), (10, 18)):
        strip = Counted(k, n)
        for d in (n, n // 2):
            for digits in range(2, len(str(k**d)) + 1):
                word = strip.least(lambda word: strip.cs_sizes(word)[d] >= 10**(digits - 1))
                yield request(k, n, word)
                yield request(k, n, necklace_below(k, word))


# Requests that are refused, or nearly

def missing():
    """No k, no n, and no word."""
    yield b""
    for k in range(256):
        yield bytes([k])
    for k, n in product((0, 1, 2, 3, 36, 37, 255), (0, 1, 2, 11, 60, 61, 255)):
        yield request(k, n, ())


def limits_of_strips(chance):
    """For each k one mark more than a strip has, and so many that the places, counted in 64 bits, may be few again; bytes that are no k or no n."""
    for k in range(2, MOST_SHADES + 1):
        most = most_marks(k)
        for n in sorted({most + 1, most + 2, 2 * most, MOST_MARKS} - {most}):
            yield request(k, n, plain(k, n, chance))
    for k, n in product((0, 1, 2, 36, 37, 38, 128, 255), (0, 1, 4, 11, 12, 60, 61, 62, 128, 255)):
        yield request(k, n, (0,) * n)


def bad_marks():
    """The largest shade, which is none, and larger bytes, at each end and between, alone and all over."""
    for k, n in [(k, 1) for k in range(2, MOST_SHADES + 1)] + [(2, 2), (3, 4), (2, 6), (36, 11), (2, 60)]:
        for at, mark in product(sorted({0, n // 2, n - 1}), (k - 1, k, k + 1, 255)):
            yield request(k, n, (0,) * at + (mark,) + (0,) * (n - 1 - at))
            yield request(k, n, (mark,) * n)


def wrong_lengths():
    """Too few marks and too many, by one, by many, and by as many as a byte or two leave out; good marks, and then a bad one."""
    for k, n in ((2, 1), (36, 1), (2, 2), (3, 4), (2, 6), (36, 11), (2, 60)):
        for length in sorted({0, 1, n // 2, n - 1, n + 1, n + 2, 2 * n, n + 50, n + 256, n + 65536} - {n}):
            word = (0, 1) * (length // 2) + (0,) * (length % 2)
            yield request(k, n, word)
            yield request(k, n, word[:-1] + (k,) * (length > 0))


def refused():
    """1, 2 and 3, alone and together."""
    for k, n in ((2, 4), (1, 4), (0, 0), (0, 4), (2, 0), (37, 1), (36, 12), (2, 61), (3, 38), (255, 255)):
        for length, mark in product((n, n - 1, n + 1, 0, 300), (0, 1, k, 255)):
            yield request(k, n, (0,) * (length - 1) + (mark,) * (length > 0))


def every_length(chance):
    """Every count of bytes up to 70: a good request cut, or with bytes behind it; one that has as many marks as it says; and junk."""
    for size in range(71):
        yield SAMPLE[:size].ljust(size, b"\0")
        yield (SAMPLE * 9)[:size]
        yield request(2, max(0, size - 2), plain(2, max(0, size - 2), chance))[:size]
        yield chance.randbytes(size)


def longer_than_the_buffer(chance):
    """worksheet reads 65,536 bytes at most; what goes on behind them has too many marks all the same."""
    starts = (SAMPLE, request(2, 60, plain(2, 60, chance)), request(2, 6, (255,) * 6), request(36, 1, ()), request(2, 61, (0,) * 61), request(37, 1, (0,)))
    for size in (BUFFER - 1, BUFFER, BUFFER + 1, BUFFER + len(SAMPLE), 200000):
        for start, more in product(starts, (b"\0", b"\xff")):
            yield start.ljust(size, more)
        yield (SAMPLE * (size // len(SAMPLE) + 1))[:size]
        yield SAMPLE.ljust(BUFFER, b"\0").ljust(size, b"\xff")[:size]
        yield chance.randbytes(size)


# By chance

def mutated(given, chance):
    """A request with one change: in a byte, in a bit, or in how many bytes there are."""
    given, kind = bytearray(given), chance.randrange(4)
    at = chance.randrange(len(given))
    if kind == 0:
        given[at] = chance.randrange(256)
    elif kind == 1:
        given[at] ^= 1 << chance.randrange(8)
    elif kind == 2:
        given.insert(at, chance.randrange(3))
    else:
        given[at:at + 1] = b""
    return bytes(given)


def random_requests(chance):
    """Good requests, the same with one change and with two; and junk."""
    for _ in range(120):
        k = chance.randint(2, MOST_SHADES)
        n = chance.randint(1, most_marks(k))
        good = request(k, n, chance.choice((runs, repeated, plain, topped))(k, n, chance))
        once = mutated(good, chance)
        yield from (good, once, mutated(once, chance))
        yield chance.randbytes(chance.randint(0, 70))
        yield bytes(chance.randrange(4) for _ in range(chance.randint(0, 9)))


# All of them

def requests():
    """Requests with their labels, each once."""
    chance = random.Random(20261117)
    kinds = {
        "word": every_word(),
        "strip": every_strip(chance),
        "zeros": zeros(),
        "largest term": largest_terms(),
        "large strip": large_strips(chance),
        "one more digit": one_more_digit(),
        "missing": missing(),
        "limit of a strip": limits_of_strips(chance),
        "bad mark": bad_marks(),
        "wrong length": wrong_lengths(),
        "refused": refused(),
        "length": every_length(chance),
        "longer than the buffer": longer_than_the_buffer(chance),
        "random": random_requests(chance),
    }
    labelled = {SAMPLE: "sample"}
    for kind, requests_ in kinds.items():
        for i, given in enumerate(requests_):
            labelled.setdefault(given, "%s %d" % (kind, i))
    return [(label, given) for given, label in labelled.items()]


def inputs():
    """A label, the request, and what must be written for it."""
    for label, given in requests():
        yield label, given, model.worksheet(given)


if __name__ == "__main__":
    sys.stdout.buffer.write(SAMPLE if sys.argv[1:] == ["--sample"] else model.worksheet(sys.stdin.buffer.read()))
