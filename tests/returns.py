#!/usr/bin/env python3
"""What the program `returns` must print: from each start of `rounds` 80 steps back and 80 on again, by the rules and not by the library; after
each 80 whether the cursor is as at first. The starts on short rings come last."""
from model import cursor_back, cursor_start, cursor_step, short_of, strip_of
from rounds import LIST_5, SHORT_WALKS, STEPS, WALKS, agree, by_the_list, by_the_ranks, listed


def walk(cursor, move, places, ring):
    """Place, number, mark and words passed of a step from each place, and the cursor at the end."""
    walked = []
    for place in places:
        number, mark, passed, cursor = move(cursor, ring)
        walked.append((place, number, mark, passed))
    return walked, cursor


def check_marks(ring, lowest, back, on):
    """The marks are those of the ring: on from the lowest place, and the same backwards from the start."""
    *before, start = ring.marks(lowest, STEPS + 1)
    agree("returns: the ring", before, [mark for _, _, mark, _ in on])
    agree("returns: the ring read back", [start] + before[:0:-1], [mark for _, _, mark, _ in back])


def check_passed(ring, lowest, back, on):
    """Of a short ring the words by their ranks; a step back passes as many as the step on that undoes it."""
    ranked = list(by_the_ranks(ring, lowest))
    agree("returns: the ranks", ranked, [step[2:] for step in on])
    agree("returns: the ranks read back", [passed for _, passed in reversed(ranked)], [passed for _, _, _, passed in back])


def check_list(ring, place, back, on):
    """Document 003's list from its end to its start, each word from its last mark to its first; then the list as it is."""
    words = listed(ring)
    reverse = [(i, word[::-1]) for i, word in reversed(words)]
    agree("returns: the list of length 5 read back", by_the_list(reverse, ring.places - 1 - place), [step[2:] for step in back])
    agree("returns: the list of length 5", by_the_list(words, (place - STEPS) % ring.places), [step[2:] for step in on])


def check(ring, place, lowest, back, on):
    check_marks(ring, lowest, back, on)
    if ring.lengths == [ring.n]:
        check_passed(ring, lowest, back, on)
    if (ring.k, ring.n, place) == LIST_5:
        check_list(ring, place, back, on)


def main():
    for (k, n, place), ring in [(walk, strip_of) for walk in WALKS] + [(walk, short_of) for walk in SHORT_WALKS]:
        refused, start = cursor_start(k, n, place, ring)
        places = [0 if refused else (place - i) % ring(k, n).places for i in range(STEPS + 1)]
        back, turned = walk(start, cursor_back, places[:-1], ring)
        on, end = walk(turned, cursor_step, places[:0:-1], ring)
        if not refused:
            check(ring(k, n), place, places[-1], back, on)
        print(k, n, place, refused)
        for walked, cursor in ((back, turned), (on, end)):
            for step in walked:
                print(*step)
            print("same" if cursor == start else "other")


if __name__ == "__main__":
    main()
