#!/usr/bin/env python3
"""What the program `rounds` must print: 80 steps along a strip, by the rules and not by the library, and the same marks in a row; then the same along
short rings."""
import sys
from itertools import cycle, islice

from model import (ENDS_5, LENGTH_5, ONLY_6, Counted, CountedShort, cursor_start, cursor_step, letters, mark_at, passed_between, place_fault, short_of,
                   strip_of)

STEPS = 80
LIST_5 = (2, 5, 0)  # the walk along document 003's list of length 5
WALKS = (
    LIST_5, (2, 6, 0), (2, 6, 63), (3, 4, 40), (4, 1, 3), (36, 2, 1290),
    (2, 60, 0), (2, 60, 1152921504606846970), (2, 60, 123456789012345678), (2, 60, 1000000000000000003),
    (10, 18, 314159265358979323), (36, 11, 98765432109876543), (2, 6, 64), (2, 61, 0),
)
LIST_6 = (2, 6, 0)  # the walk along document 004's words of length 6
# on short rings, which have 30, 54, 72, 4, 2, 4,020 and 1,260 places, (2, 60) 1,152,921,503,532,053,580
SHORT_WALKS = (
    LIST_5, LIST_6, (2, 6, 53), (3, 4, 40), (4, 1, 3), (2, 2, 1), (2, 12, 3010), (36, 2, 1254),
    (2, 60, 0), (2, 60, 1152921503532053547), (2, 60, 123456789012345678), (2, 60, 1000000000000000003),
    (10, 18, 314159265358979323), (36, 11, 98765432109876543), (2, 6, 54), (2, 61, 0),
)


def by_the_rule(ring, place):
    """Mark and words passed of each step."""
    word, at = ring.word_at(place)
    for _ in range(STEPS):
        mark, at, passed = word[at], at + 1, 0
        if at == len(word):
            (word, passed), at = ring.following(word), 0
        yield mark, passed


def by_the_ranks(ring, place):
    """The same on a short ring, each word by its index, and the words passed by how many there are up to each."""
    for here in range(place, place + STEPS):
        index, at = divmod(here % ring.places, ring.n)
        word, passed = ring.word(index + 1), 0
        if at == ring.n - 1 and index + 1 < ring.count():
            passed = passed_between(ring.k, word, ring.word(index + 2))
        yield word[at], passed


def listed(ring):
    """The words of (2, 5) by document 003's list alone, those whose lengths a ring has, each with its number in the list."""
    return [(i, letters(word)[:end]) for i, (word, end) in enumerate(zip(LENGTH_5, ENDS_5)) if end in ring.lengths]


def by_the_list(words, start):
    """Mark and words passed of each step along such words, up or down the list, from a place on: a step from one word to the next passes as many
    as their numbers are apart, none at the wrap."""
    round_once = []
    for (here, (*marks, last)), following in zip(words, words[1:] + [None]):
        round_once += [(mark, 0) for mark in marks]
        round_once.append((last, abs(following[0] - here) if following else 0))
    return list(islice(cycle(round_once), start, start + STEPS))


def agree(what, told, walked):
    if told != walked:
        sys.exit("%s and the rule differ: %s, %s" % (what, told, walked))


def check_short(ring, place, walked):
    """The words by their ranks, and by document 004's list."""
    agree("rounds: the ranks", list(by_the_ranks(ring, place)), walked)
    if (ring.k, ring.n, place) == LIST_6:
        agree("rounds: the words of length 6", list(islice(cycle(letters("".join(ONLY_6))), STEPS)), [mark for mark, _ in walked])


def steps(k, n, place, ring):
    """Place, number, mark and words passed of each step. A refused start gives a cursor of zeros, and each step of that is refused."""
    if place_fault(k, n, place, ring):
        _, zeros = cursor_start(k, n, place, ring)
        return [(0,) + cursor_step(zeros, ring)[:3]] * STEPS
    counted = (CountedShort if ring is short_of else Counted)(k, n)
    walked = list(by_the_rule(counted, place))
    if ring is short_of:
        check_short(counted, place, walked)
    if (k, n, place) == LIST_5:
        agree("rounds: the list of length 5", by_the_list(listed(counted), place), walked)
    return [((place + i) % counted.places, 0) + step for i, step in enumerate(walked)]


def told(k, n, place, ring):
    """The last byte of mark_at's tray, which was 255."""
    fault, answer = mark_at(k, n, place, ring)
    return 255 if fault else answer[-1]


def main():
    for (k, n, place), ring in [(walk, strip_of) for walk in WALKS] + [(walk, short_of) for walk in SHORT_WALKS]:
        refused = place_fault(k, n, place, ring)
        print(k, n, place, refused)
        walked = steps(k, n, place, ring)
        for here, number, mark, passed in walked:
            print(here, number, mark, passed, told(k, n, here, ring))
        print("".join("%d " % (255 if refused else mark) for _, _, mark, _ in walked))


if __name__ == "__main__":
    main()
