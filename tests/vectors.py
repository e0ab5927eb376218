#!/usr/bin/env python3
"""Prints calls with their expected results, one a line, made with model.py; read by vectors.c.

    turn  K N WORD        REFUSAL ANSWER        mark  K N PLACE       REFUSAL ANSWER
    rank  K N WORD        REFUSAL ANSWER        print K N PLACE MARKS REFUSAL ANSWER
    word  K N INDEX       REFUSAL ANSWER        look  PLAN WINDOW     REFUSAL ANSWER
    place K N WINDOW      REFUSAL ANSWER        picture K N PLACE WIDTH HEIGHT REFUSAL ANSWER
    smudged PLAN WINDOW   REFUSAL ANSWER        misread PLAN WINDOW   REFUSAL ANSWER, the list, which may be empty
    bill PLAN PRICE CHARGE REFUSAL ANSWER

and short_mark, short_place, short_print, written as mark, place and print. Bytes are written in hexadecimal, no bytes as "-". An optional argument is
the most places of a small strip, of which, and of whose short ring, all is printed. Fails if there are too few smudged windows that tell the lowest place
from what a lookup might give by mistake, too few bills that tell the right one from mistakes of theirs, or too few windows of short rings.
"""
import random
import sys
from collections import Counter, defaultdict, namedtuple
from itertools import combinations, product
from math import ceil

import model
from model import LARGE, MOST_CHARGE, MOST_PRICE, MOST_ROLL, UNREAD, admitted, filling_places, letters, plan_bytes, short_of, small_strips, strip_of

HUGE = (2**60, 2**60 + 1, 2**63, 2**64 - 1)


def text(data):
    return bytes(data).hex() or "-"


def turn(k, n, word):
    fault, answer = model.turn_of(k, n, word)
    print("turn", k, n, text(word), fault, text(answer))


def rank(k, n, word):
    fault, answer = model.rank_of(k, n, word)
    print("rank", k, n, text(word), fault, text(answer))


def word(k, n, index):
    fault, answer = model.word_of(k, n, index)
    print("word", k, n, index, fault, text(answer))


def mark(k, n, place, name="mark", call=model.mark_at):
    fault, answer = call(k, n, place)
    print(name, k, n, place, fault, text(answer))


def place(k, n, window, name="place", call=model.place_of):
    fault, answer = call(k, n, window)
    print(name, k, n, text(window), fault, text(answer))
    return fault, int.from_bytes(answer, "big")


def marks(k, n, start, count, name="print", call=model.print_marks):
    fault, answer = call(k, n, start, count)
    print(name, k, n, start, count, fault, text(answer))


def short_mark(k, n, place):
    mark(k, n, place, "short_mark", model.short_mark_at)


def short_place(k, n, window):
    tally_short(k, n, tuple(window), *place(k, n, window, "short_place", model.short_place_of))


def short_marks(k, n, start, count):
    marks(k, n, start, count, "short_print", model.short_print_marks)


def picture(k, n, start, width, height):
    fault, answer = model.picture_of(k, n, start, width, height)
    print("picture", k, n, start, width, height, fault, text(answer))


def look(plan, window):
    fault, answer = model.look_up(plan, window)
    print("look", text(plan), text(window), fault, text(answer))


def smudged(plan, window):
    fault, answer = model.look_up_smudged(plan, window)
    print("smudged", text(plan), text(window), fault, text(answer))
    if fault == 0 and UNREAD in window:
        tally(plan, tuple(window))


def misread(plan, window):
    fault, answer = model.misreadings_of(plan, window)
    print("misread", text(plan), text(window), fault, text(answer))


def bill(plan, price, charge):
    fault, answer = model.bill_of(plan, price, charge)
    print("bill", text(plan), price, charge, fault, text(answer))
    if fault != 7:
        tally_bill(plan, price, charge, fault, int.from_bytes(answer, "big"))


def on_word(k, n, marks_):
    turn(k, n, marks_)
    rank(k, n, marks_)
    place(k, n, marks_)
    short_place(k, n, marks_)


# A ring, and what is asked of it
Asked = namedtuple("Asked", "ring mark marks place")
STRIP, SHORT = Asked(strip_of, mark, marks, place), Asked(short_of, short_mark, short_marks, short_place)


# What the smudged windows tell

# a laid window that agrees, with its number among the fillings
Fit = namedtuple("Fit", "filling place section distance rail")
# by what a lookup might take another one for that of the lowest place
MISTAKES = {
    "the first filling": lambda fit: fit.filling,
    "the last filling": lambda fit: -fit.filling,
    "the highest place": lambda fit: -fit.place,
    "the last in the first section": lambda fit: (fit.section, -fit.place),
    "the smallest distance": lambda fit: (fit.distance, fit.place),
    "the lowest rail": lambda fit: (fit.rail, fit.place),
    "the lowest place in 32 bits": lambda fit: (fit.place % 2**32, fit.place),
}
SMALL, MOST_SMALL, MANY = "small strips", 64, "more than 255 sections"
tallied = defaultdict(Counter)


def tally(plan, window):
    """Counts the kinds of an answered window: by the mistakes that would give another answer, and by where the lowest place is among the fillings."""
    k, n, places = plan[0], plan[1], filling_places(plan[0], window)
    layings = [model.laid(plan, place) for place in places]
    fits = [Fit(filling, places[filling], *found) for filling, found in enumerate(layings) if found]
    lowest = min(fits, key=lambda fit: fit.place)
    lower, without_rails = [place for place in places if place < lowest.place], plan_bytes(k, n, model.sections_of(plan))
    across = [place for place in lower if model.laid(without_rails, place)]
    kinds = {name: min(fits, key=mistake) != lowest for name, mistake in MISTAKES.items()}
    kinds.update({
        "neither the first that is laid nor the last": lowest not in (fits[0], fits[-1]),
        "the first of all": lowest.filling == 0,
        "the last of all": lowest.filling == len(places) - 1,
        "a lower one in a gap": len(lower) > len(across),
        "a lower one across a joint": len(across) > 0,
        "one over the end": max(places) > k**n - n,
    })
    for group in [SMALL if k**n <= MOST_SMALL else (k, n)] + ([MANY] if model.count_in(plan) > 255 else []):
        tallied[group].update(kinds)


def check_tally():
    """Each kind came often, on the small strips, on each large one and with many sections; a place of a small strip is the same in 32 bits. Of the bills
    too, of both records, and of the windows of short rings."""
    del tallied[SMALL]["the lowest place in 32 bits"]
    del tallied[SMALL_RINGS]["in 32 bits"]
    rings = [(SMALL_RINGS, 10)] + [((short_of, k, n), 2) for k, n in LARGE_RINGS]
    for group, often in [(SMALL, 300), (MANY, 20)] + [(strip, 10) for strip in LARGE] + [(record, 20) for record in RECORDS] + rings:
        assert min(tallied[group].values()) >= often, (group, tallied[group])


# What the bills tell

def each(cost):
    """A bill that has for each section the charge and what its marks cost, by their number and the price."""
    return lambda lengths, price, charge: sum(cost(length, price) + charge for length in lengths)


def raised(thousandths):
    return -(-thousandths // 1000)


right_bill = each(lambda length, price: raised(length * price))
# what a bill might come to by mistake, by the sections' lengths, the price and the charge
WRONG_BILLS = {
    "rounded once": lambda lengths, price, charge: raised(sum(lengths) * price) + len(lengths) * charge,
    "rounded down": each(lambda length, price: length * price // 1000),
    "rounded to the nearest": each(lambda length, price: (length * price + 500) // 1000),
    "whole cents raised": each(lambda length, price: length * price // 1000 + 1),
    "one charge for the plan": lambda lengths, price, charge: right_bill(lengths, price, 0) + charge,
    "the charge in thousandths": lambda lengths, price, charge: sum(raised(length * price + charge) for length in lengths),
    "without the first section": lambda lengths, price, charge: right_bill(lengths[1:], price, charge),
    "without the last section": lambda lengths, price, charge: right_bill(lengths[:-1], price, charge),
    "without the sections from 256 on": lambda lengths, price, charge: right_bill(lengths[:256], price, charge),
    "the product in 32 bits": each(lambda length, price: raised(length * price % 2**32)),
    "the product as a double": each(lambda length, price: ceil(float(length) * price / 1000)),
    "the sum in 32 bits": lambda lengths, price, charge: right_bill(lengths, price, charge) % 2**32,
}
RECORDS = ("bills of old records", "bills of new records")


def tally_bill(plan, price, charge, fault, cents):
    """Counts the kinds of a bill that is not of a torn record, by the mistakes that would give another number or other cents."""
    faults, lengths = model.bill_faults(plan, price, charge), model.lengths_of(plan)
    longest, fair_price, fair_charge = max(lengths, default=0), price <= MOST_PRICE, charge <= MOST_CHARGE
    kinds = {"%d before %d" % (later, sooner): fault == sooner and later in faults for sooner, later in ((1, 14), (1, 15), (8, 14), (8, 15), (14, 15))}
    kinds.update({
        "the longest section refused": fault == 0 and longest == MOST_ROLL,
        "the highest price refused": fault == 0 and price == MOST_PRICE,
        "the highest charge refused": fault == 0 and charge == MOST_CHARGE,
        "a mark more taken": fault == 14 and longest == MOST_ROLL + 1,
        "a price one higher taken": fault == 15 and price == MOST_PRICE + 1 and fair_charge,
        "a charge one higher taken": fault == 15 and charge == MOST_CHARGE + 1 and fair_price,
        "limits exchanged, and taken": fault == 15 and price <= MOST_CHARGE and charge <= MOST_PRICE,
        "limits exchanged, and refused": fault == 0 and charge > MOST_PRICE,
        "the price in 32 bits": fault == 15 and price % 2**32 <= MOST_PRICE and fair_charge,
        "the charge in 32 bits": fault == 15 and charge > MOST_CHARGE and fair_price,
        "only the first length looked at": fault == 14 and lengths[0] <= MOST_ROLL,
        "only the last length looked at": fault == 14 and lengths[-1] <= MOST_ROLL,
        "only the first and the last length looked at": fault == 14 and max(lengths[0], lengths[-1]) <= MOST_ROLL,
        "no section, and no price looked at": fault == 15 and not lengths,
        "no section, and a charge": fault == 0 and not lengths and charge > 0,
    })
    if fault == 0:
        kinds.update({name: wrong(lengths, price, charge) != cents for name, wrong in WRONG_BILLS.items()})
    for entry, record in zip((model.OLD_ENTRY, model.NEW_ENTRY), RECORDS):
        if len(plan) == 4 + entry * len(lengths):
            tallied[record].update(kinds)


# What the windows of short rings tell

LARGE_RINGS = LARGE + ((35, 11), (2, 48), (2, 59))
SMALL_RINGS, MOST_RING = "small rings", 512


def turned_place(ring, window):
    """In the ring's word that is a turn of the window, where a window is read that does not begin with the largest shade."""
    return ring.start(model.smallest_rotation(window)) + -model.least_turn(window) % ring.n


def tally_short(k, n, window, fault, found):
    """Counts the kinds of a window on a short ring, by the mistakes that would give another number or another place; of one mark there are none."""
    if not admitted(k, n) or n == 1 or k**n > MOST_RING and (k, n) not in LARGE_RINGS:
        return
    root = model.root_length(window) if window else 0
    kinds = {"16 before 2": fault == 2 and root < len(window), "16 before 3": fault == 3 and root < len(window), "16 never": fault == 16}
    if len(model.divisors(n)) > 2:
        kinds["16 for a single shade alone"] = fault == 16 and root > 1
    if fault == 0:
        ring, strip = short_of(k, n), strip_of(k, n)
        word, at = ring.word_at(found)
        following, _ = ring.following(word)
        kinds.update({
            "the strip's place": strip.place(window) != found,
            "in its own word": turned_place(ring, window) != found,
            "in 32 bits": found >= 2**32,
            "not beyond a word": at > 0,
            "not beyond the last word": found > ring.places - n,
            "not where a shorter word is left out": at > 0 and strip.following(word)[0] != following,
            "only beyond a word": at == 0,
        })
    tallied[SMALL_RINGS if k**n <= MOST_RING else (short_of, k, n)].update(kinds)


# Cases named in the documents

def cases_of_the_rules():
    for written in ("00", "10", "20", "21", "22"):
        on_word(3, 2, letters(written))
    for shade in range(5):
        on_word(4, 1, (shade,))
    marks(4, 1, 0, 4)
    marks(3, 2, 0, 9)
    marks(2, 4, 0, 16)
    short_marks(4, 1, 0, 4)
    short_marks(3, 2, 0, 6)
    short_marks(2, 4, 0, 12)
    short_marks(2, 2, 1, 3)
    picture(2, 4, 4, 5, 2)
    for index in range(12):
        word(2, 6, index)
    for asked, starts in ((STRIP, range(7, 11)), (SHORT, range(4, 10))):
        for start in starts:
            asked.mark(3, 2, start)
            asked.marks(3, 2, start, 3)
    for window in ((3, 0), (0, 3), (3, 3)):
        on_word(3, 2, window)
    for written in ("000000", "100100", "101010", "010111", "111111", "100000", "011010"):
        on_word(2, 6, letters(written))
    for k, n in ((2, 60), (4, 30), (32, 12), (10, 18), (2, 61), (4, 31), (33, 12), (10, 19), (1, 5), (2, 0), (36, 11), (36, 12), (37, 1), (36, 1)):
        on_word(k, n, (0,) * n)
        word(k, n, 1)
        for asked in (STRIP, SHORT):
            asked.mark(k, n, 0)
            asked.marks(k, n, 0, 3)


def plans_of_the_rules():
    """As old records, and with rails that are all the same, that differ, and that return."""
    for sections in ([(12, 4)], [(13, 4)], [(0, 3)], [(0, 8), (7, 5)], [], [(0, 6), (8, 8)], [(0, 8), (8, 8)], [(0, 7), (8, 8)],
                     [(0, 4), (4, 4), (8, 4)], [(0, 16)]):
        for rails in (None, (7, 7, 7), (7, 8, 9), (7, 8, 8), (65535, 65535, 0), (0, 1, 0)):
            for window in model.words(2, 4):
                look(plan_bytes(2, 4, sections, rails and rails[:len(sections)]), window)


def smudged_of_the_rules():
    """Every window of a plan with a gap, of one section, and of two that meet, welded and not; two windows with a bad mark."""
    plans = [plan_bytes(2, 4, sections) for sections in ([(0, 6), (8, 8)], [(0, 16)])]
    plans += [plan_bytes(2, 4, [(0, 8), (8, 8)], rails) for rails in (None, (7, 7), (7, 8), (8, 7))]
    for plan, window in product(plans, model.smudged_windows(2, 4, 4) + [(UNREAD, 2, UNREAD, UNREAD), (UNREAD, 2, 0, 0)]):
        smudged(plan, window)


def misread_of_the_rules():
    """Every window of the request's two plans, and of others on the same strip: a window alone, over a joint, and at one that is not welded."""
    for window in model.words(3, 2):
        misread(plan_bytes(3, 2, [(0, 9)]), window)
    for sections, rails in (([(0, 6), (8, 8)], None), ([(12, 4)], None), ([(0, 8), (8, 8)], None), ([(0, 8), (8, 8)], (7, 7)), ([(0, 8), (8, 8)], (7, 8))):
        for window in list(model.words(2, 4)) + [(1, UNREAD, 1, 1)]:
            misread(plan_bytes(2, 4, sections, rails), window)


def cases_of_document_003():
    for n, cycle in enumerate(model.CYCLES, 2):
        marks(2, n, 0, len(cycle))
        for start in range(len(cycle)):
            window = (letters(cycle) * 2)[start:start + n]
            place(2, n, window)
    fives = [letters(w) for w, end in zip(model.LENGTH_5, model.ENDS_5) if end == 5]
    for index, w in enumerate(fives, 1):
        assert model.word_of(2, 5, index) == (0, bytes(w))
        word(2, 5, index)
    for w in model.LENGTH_5:
        on_word(2, 5, letters(w))


def cases_of_document_004():
    rank(2, 6, letters("abbaba"))
    rank(2, 6, letters("ababbb"))
    for index, w in enumerate(model.ONLY_6, 1):
        assert model.word_of(2, 6, index) == (0, bytes(letters(w)))
        word(2, 6, index)
        on_word(2, 6, letters(w))
    for asked, words in ((STRIP, model.STRIP_6), (SHORT, model.ONLY_6)):
        asked.marks(2, 6, 0, len("".join(words)))
        start = 0
        for w in words:
            assert asked.ring(2, 6).marks(start, len(w)) == letters(w)
            asked.marks(2, 6, start, len(w))
            start += len(w)


# Everything of a small strip and its short ring

def whole_strip(k, n):
    for w in model.words(k, n):
        on_word(k, n, w)
    for index in list(range(strip_of(k, n).count() + 2)) + list(HUGE):
        word(k, n, index)
    for asked in (STRIP, SHORT):
        every_place(k, n, asked)


def every_place(k, n, asked):
    """And where a place is no more: behind the ring's end, and behind the strip's."""
    places = asked.ring(k, n).places
    for start in sorted({*range(places + 1), k**n - 1, k**n, *HUGE}):
        asked.mark(k, n, start)
        asked.marks(k, n, start, n)
    last = places - 1
    for start, count in product((0, 1 % places, places // 2, last), (0, 1, last, last + 1, last + 2, 2 * last + 5)):
        asked.marks(k, n, start, count)


# Parts of a large strip

def runs(k, n, chance):
    """A word of k - 1 and 0, or of neighbouring shades: where the cases of the locator part."""
    low, high = chance.choice(((0, k - 1), (k - 2, k - 1), (0, 1), (k // 2 - 1, k - 1)))
    w = []
    while len(w) < n:
        w += [chance.choice((low, high))] * chance.randint(1, max(1, n // 3))
    return w[:n]


def repeated(k, n, chance):
    """A shorter word repeated and turned, at times with one mark changed."""
    d = chance.choice(model.divisors(n))
    w = [chance.randrange(k) for _ in range(d)] * (n // d)
    turn = chance.randrange(n)
    w = w[turn:] + w[:turn]
    if chance.random() < 0.5:
        w[chance.randrange(n)] = chance.randrange(k)
    return w


def plain(k, n, chance):
    return [chance.randrange(k) for _ in range(n)]


def topped(k, n, chance):
    """Shades k - 1, then the beginning of a Lyndon word of the strip: the locator's hardest case."""
    w = model.necklace_not_above(k, tuple(chance.choice((plain, runs))(k, n, chance)))
    turn = chance.randint(1, n)
    return ([k - 1] * turn + list(w))[:n]


def part_of_strip(k, n, chance, many):
    strip = strip_of(k, n)
    for tops in range(n + 1):
        on_word(k, n, [k - 1] * tops + [0] * (n - tops))
        on_word(k, n, [0] * tops + [k - 1] * (n - tops))
    for _ in range(many):
        for make in (runs, repeated, plain, topped):
            on_word(k, n, tuple(make(k, n, chance)))
    some_places(k, n, STRIP, chance, many // 2)
    last = strip.count()
    for index in [1, 2, 3, last // 2, last - 1, last] + [chance.randint(1, last) for _ in range(many // 2)]:
        word(k, n, index)
        rank(k, n, strip.word(index))
    for value in (0, last + 1, strip.places, strip.places + 1) + HUGE:
        word(k, n, value)


def some_places(k, n, asked, chance, many):
    """At the ends of a ring, in its middle and anywhere, and where a place is no more."""
    ring = asked.ring(k, n)
    edges = [0, 1, n - 1, n, n + 1, ring.places // 2, ring.places // k, ring.places - n, ring.places - n + 1, ring.places - 1]
    for start in edges + [chance.randrange(ring.places) for _ in range(many)]:
        asked.mark(k, n, start)
        asked.marks(k, n, start, chance.choice((0, 1, n - 1, n, n + 1, 2 * n, 300)))
        asked.place(k, n, ring.marks(start, n))
    for value in sorted({ring.places - 1, ring.places, ring.places + 1, k**n - 1, k**n, *HUGE}):
        asked.mark(k, n, value)
        asked.marks(k, n, value, 2)
        asked.marks(k, n, value, 0)


def some_word(k, n, chance):
    """Any Lyndon word of n letters."""
    return strip_of(k, n).word(chance.randint(1, strip_of(k, n).count()))


def part_of_short(k, n, chance, many):
    """Words read from each of their marks on, among them some behind which the strip has a shorter word; windows as for strips."""
    ring = short_of(k, n)
    some_places(k, n, SHORT, chance, many)
    lengths = model.divisors(n)[:-1]
    left_out = [some_word(k, d, chance) for d in sorted({1, *chance.sample(lengths, min(2, len(lengths)))})]
    words = [ring.before(shorter) or ring.last for shorter in left_out] + [ring.last, some_word(k, n, chance)]
    for start, at in product(sorted({ring.start(w) for w in words}), range(n + 1)):
        short_place(k, n, ring.marks((start + at) % ring.places, n))
    for make, _ in product((runs, repeated, plain, topped), range(many)):
        short_place(k, n, make(k, n, chance))
    repeating(k, n, chance)


def repeating(k, n, chance):
    """Shorter words repeated: as they are, with a mark changed, with a bad mark in one of them or in each, and once too often or too rarely."""
    for root in model.divisors(n)[:-1]:
        for bad in (k, 255):
            w = [chance.randrange(k) for _ in range(root)]
            broken = w[:-1] + [bad]
            whole, behind = w * (n // root), w * (n // root - 1)
            for near in (whole, behind + w[:-1] + [(w[-1] + 1) % k], behind + broken, broken * (n // root), whole + w, behind, broken * (n // root + 1)):
                short_place(k, n, near)


# Pictures

def pictures(chance):
    """Widths that fill lines, and one more or less; up to the widest and the highest; round the end, more than once on a short strip."""
    for n in (1, 2, 4, 7, 60):
        places = 2**n
        for start, width, height in product((0, places - 1), (1, 2, 69, 70, 71, 139, 140, 141, 210, 211), (1, 2, 3, 64)):
            picture(2, n, start, width, height)
        for _ in range(20):
            picture(2, n, chance.randrange(places), chance.randint(1, 700), chance.randint(1, 9))
    for n, start, width, height in ((60, 2**60 - 30000, 60000, 1), (60, 12345, 59999, 2), (16, 65535, 60000, 64), (60, 2**59, 59989, 64)):
        picture(2, n, start, width, height)


def picture_refusals():
    """1, 12, 4 and 13: alone and together."""
    strips = ((2, 4), (3, 4), (36, 11), (1, 4), (0, 0), (37, 4), (2, 0), (2, 61), (2**32 + 2, 4), (2, 2**32 + 4), (2**64 - 1, 4))
    sizes = ((1, 1), (60000, 64), (0, 1), (1, 0), (60001, 1), (1, 65), (0, 0), (2**16 + 1, 1), (1, 2**8 + 1), (2**32 + 1, 1), (1, 2**32 + 1), (2**64 - 1, 2**64 - 1))
    for (k, n), start, (width, height) in product(strips, (0, 15, 16, 2**60, 2**64 - 1), sizes):
        if (k, n, width) != (2, 4, 60000) or start > 15:  # the largest file is drawn above
            picture(k, n, start, width, height)


# Refusals alone and together

def refusals():
    strips = ((3, 4), (2, 6), (1, 4), (0, 4), (37, 4), (3, 0), (3, 61), (36, 12), (2, 61), (0, 0),
              (2**32 + 3, 4), (3, 2**32 + 4), (2**64 - 1, 2**64 - 1))
    for k, n in strips:
        right = n if n <= 64 else 4
        for length, bad in product((right, right - 1, right + 1, 0), (None, min(k, 255), 255)):
            w = [0] * max(0, length)
            if bad is not None and w:
                w[-1] = bad
            on_word(k, n, w)
        for value in (0, 1, 8, 53, 54, 63, 64, 71, 72, 80, 81, 82) + HUGE:
            word(k, n, value)
            for asked in (STRIP, SHORT):
                asked.mark(k, n, value)
                for count in (0, 1, 9):
                    asked.marks(k, n, value, count)


def torn(plan):
    """Records that are torn: cut, too long, with a wrong count of sections."""
    yield from (plan[:0], plan[:1], plan[:3], plan[:-1], plan + b"\0", plan + b"\0" * 16, plan + b"\0" * 18)
    m = int.from_bytes(plan[2:4], "big")
    for other in (m + 1, m + 256, 501, 65535):
        yield plan[:2] + other.to_bytes(2, "big") + plan[4:]
    if m:
        yield plan[:4]
    yield plan_bytes(plan[0], plan[1], [(0, 4)] * 501)


def plan_refusals():
    good, crooked = [(0, 6), (8, 8)], [(0, 6), (5, 8)]
    windows = [bytes(w) for w in ((0, 0, 0, 0), (1, 0, 0, 0), (0, 0, 0), (0, 0, 0, 0, 0), (0, 0, 0, 2), (0, 255, 0, 0), (0, 0, 255), (2,) * 5, ())]
    smudged_ones = [bytes(w) for length in (3, 4, 5) for count in (0, 2, 3) for bad in ((), (2,), (254,))
                    for w in [(UNREAD,) * count + bad + (0,) * (length - count - len(bad))] if len(w) == length]
    for k, n in ((2, 4), (1, 4), (2, 0), (2, 61), (0, 0), (255, 255), (37, 1)):
        for plan in [plan_bytes(k, n, sections, rails) for sections in (good, crooked, []) for rails in (None, [3] * len(sections))]:
            for window in windows:
                for each in [plan] + list(torn(plan)):
                    look(each, window)
                    misread(each, window)
            for window in smudged_ones:
                smudged(plan, window)
                for broken in torn(plan):
                    smudged(broken, window)
    places, n = 16, 4
    bends = ([(0, n - 1)], [(0, 0)], [(places - n + 1, n)], [(places, n)], [(places, 0)], [(0, places + 1)],
             [(2**64 - 1, n)], [(2**64 - n, n)], [(0, 2**64 - 1)], [(4, 2**64 - 4)], [(1, 2**64 - 1)], [(2**64 - 8, 8), (0, 4)],
             [(8, 4), (0, 4)], [(0, 4), (3, 4)], [(0, 4), (0, 4)], [(0, 4), (4, 4), (7, 4)], [(0, 4), (4, 3)], [(0, 8), (8, 9)])
    for sections, rails in product(bends, (None, (0, 0, 0), (1, 65535, 1))):
        for window in windows:
            look(plan_bytes(2, 4, sections, rails and rails[:len(sections)]), window)
            misread(plan_bytes(2, 4, sections, rails and rails[:len(sections)]), window)


def totals():
    """Each total that a record with up to 9 sections may have, with each count of them, and those around the totals of 499, 500 and 501."""
    k, n = 36, 2
    for m in list(range(10)) + [499, 500, 501]:
        sections, rails = [(n * i, n) for i in range(m)], [i * 131 for i in range(m)]
        sizes = range(4 + 18 * 9 + 20) if m < 10 else [4 + entry * m + more for entry in (16, 18) for more in (-2, -1, 0, 1, 2)]
        for size in sizes:
            old, new = plan_bytes(k, n, sections), plan_bytes(k, n, sections, rails)
            plan = (old if size <= len(old) else new)[:size].ljust(size, b"\0")
            for at in (0, 1, n * m - n, n * m - 1):
                look(plan, strip_of(k, n).marks(max(0, at), n))
            smudged(plan, smudge(strip_of(k, n).marks(0, n), 1, random.Random(size)))
            misread(plan, strip_of(k, n).marks(0, n))
            bill(plan, 1001, 1)


# Plans with lookups

def some_rails(count, chance):
    """Rails for so many sections: all the same, or a few that come again and again, the smallest and the largest among them."""
    few = chance.choice(((chance.randrange(65536),), (0, 65535), (7, 8), (0, 1, 256, 65535)))
    return [chance.choice(few) for _ in range(count)]


def either(k, n, sections, chance):
    """A plan as an old or as a new record."""
    return plan_bytes(k, n, sections, chance.choice((None, some_rails(len(sections), chance))))


def both(k, n, sections, chance):
    """A plan as an old record and as a new one."""
    return [plan_bytes(k, n, sections), plan_bytes(k, n, sections, some_rails(len(sections), chance))]


def each_record(k, n, sections, chance):
    """The same, and with a rail for each section, the higher the earlier."""
    return both(k, n, sections, chance) + [plan_bytes(k, n, sections, range(len(sections))[::-1])]


def random_sections(places, n, most, chance):
    """Good sections: some touch, some have a gap, some are as short as may be."""
    sections, start = [], chance.choice((0, chance.randrange(places)))
    while len(sections) < most and start + n <= places:
        length = min(places - start, n + chance.choice((0, 0, 1, chance.randrange(3 * n), chance.randrange(places))))
        sections.append((start, length))
        start += length + chance.choice((0, 0, 1, n - 1, chance.randrange(2 * n), chance.randrange(places)))
    return sections


def bent(sections, n, chance):
    """The sections with one number moved a little: often, but not always, refused."""
    sections = [list(pair) for pair in sections]
    if sections:
        pair, at = chance.choice(sections), chance.randrange(2)
        pair[at] = max(0, pair[at] + chance.choice((-n, -1, 1, n)))
    return [tuple(pair) for pair in sections]


def small_plans(chance, many):
    strips = [(k, n) for k, n in small_strips(300) if k <= 36]
    for _ in range(many):
        k, n = chance.choice(strips)
        sections = random_sections(k**n, n, chance.randint(0, 6), chance)
        for plan in both(k, n, sections, chance):
            for start in range(k**n):
                look(plan, strip_of(k, n).marks(start, n))
        broken = either(k, n, bent(sections, n, chance), chance)
        for start in chance.sample(range(k**n), min(3, k**n)):
            look(broken, strip_of(k, n).marks(start, n))


def small_smudged(chance, many):
    """Every window with up to three marks unread of the strips with up to 64 places, in plans without sections, with one, with two that touch, welded
    or not, and in such as come."""
    plans = list(model.plans_of_small_strips(MOST_SMALL))
    for (k, n), _ in product(small_strips(MOST_SMALL), range(many)):
        plans += each_record(k, n, random_sections(k**n, n, chance.randint(1, 4), chance), chance)
    for plan in plans:
        for window in model.smudged_windows(plan[0], plan[1], 3):
            smudged(plan, window)


def small_misread(chance, many):
    """Every window of the strips with up to 256 places, laid or not, in plans without sections, with one, with two that touch, and in such as come."""
    for k, n in small_strips(256):
        places = k**n
        half = max(n, places // 2)
        plans = [either(k, n, sections, chance) for sections in ([], [(0, places)])] + both(k, n, [(0, half), (half, places - half)], chance)
        for _ in range(many):
            plans += both(k, n, random_sections(places, n, chance.randint(1, 6), chance), chance)
        for plan, window in product(plans, model.words(k, n)):
            misread(plan, window)


def two_sections(n, places):
    for first, second in combinations(((start, length) for start in range(places) for length in range(n, places - start + 1)), 2):
        if sum(first) <= second[0]:
            yield [first, second]


def tiles(n, start, end, most):
    """The ways to lay up to so many sections that meet from a place to another."""
    if start == end:
        yield []
    for length in range(n, end - start + 1 if most else 0):
        for others in tiles(n, start + length, end, most - 1):
            yield [(start, length)] + others


def joints(chance, most):
    """Every plan of two sections, and every one whose sections, up to six, meet from the strip's first place to its last; all windows, one smudged, and
    the misreadings of one. Where n is 1 no window crosses a joint, so few shades are enough."""
    for k, n in small_strips(most):
        strip, places = strip_of(k, n), k**n
        if n == 1 and k > 6:
            continue
        for sections in list(two_sections(n, places)) + list(tiles(n, 0, places, 6)):
            for plan in both(k, n, sections, chance):
                for at in range(places):
                    look(plan, strip.marks(at, n))
                smudged(plan, smudge(strip.marks(chance.randrange(places), n), chance.randint(1, 2), chance))
                misread(plan, strip.marks(chance.randrange(places), n))


def large_joints(chance):
    """500 sections that meet in pairs: at each section a window that ends behind it, some of them smudged too."""
    for k, n in ((2, 60), (36, 11)):
        strip = strip_of(k, n)
        room = strip.places // 500
        sections = [(i * room, room - i % 2 * chance.randint(1, 2 * n)) for i in range(500)]
        plans = both(k, n, sections, chance)
        for i, (offset, length) in enumerate(sections):
            window = strip.marks((offset + length - chance.randint(1, n - 1)) % strip.places, n)
            for plan in plans:
                look(plan, window)
            if i % 10 < 2:
                smudged(chance.choice(plans), smudge(window, 1, chance))


def smudge(window, count, chance):
    window = list(window)
    for i in chance.sample(range(len(window)), min(count, len(window))):
        window[i] = UNREAD
    return tuple(window)


def large_smudged(chance, many):
    """Windows of 500 sections with marks unread, that begin in a section, at its end or in a gap; two unread marks of 36 shades are 1,296 windows."""
    for k, n in LARGE:
        strip = strip_of(k, n)
        for m in (1, 500):
            sections = spread(strip.places, n, m, chance)
            plan = either(k, n, sections, chance)
            for count in range(4):
                for _ in range(many if k**count <= 200 else 1 + many // 4):
                    offset, length = chance.choice(sections)
                    at = chance.choice((offset, offset + length - n, offset + length - n + 1, offset + length - 1))
                    smudged(plan, smudge(strip.marks(at % strip.places, n), count, chance))


def unclear(k, n, chance):
    """One or two marks unread, in a window of any kind."""
    if chance.random() < 0.3:
        return (UNREAD,) + smudge(fronted(k, n, chance)[1:], chance.randint(0, 1), chance)
    return smudge(chance.choice((plain, runs, topped, ending))(k, n, chance), chance.choice((1, 2, 2)), chance)


def fronted(k, n, chance):
    """Largest shades, smallest, then any: with another first mark, even the smallest, its place is mostly higher."""
    return ([k - 1] * chance.randint(1, n // 2) + [0] * (1 + n // 4) + plain(k, n, chance))[:n]


def ending(k, n, chance):
    """A window over the strip's end."""
    tops = chance.randint(1, n - 1)
    return [k - 1] * tops + [0] * (n - tops)


def covered_smudged(chance, many):
    """Sections that meet from the strip's first place to its last, so that nearly all fillings are laid; with one section, all in that."""
    for (k, n), m, _ in product(LARGE, (1, 2, 500), range(many)):
        ends = [k**n * i // m for i in range(m + 1)]
        window = unclear(k, n, chance)
        for plan in each_record(k, n, between(ends), chance):
            smudged(plan, window)


def aimed_smudged(chance, many):
    """Plans for a window's fillings, in which some of these are laid and lower ones are not."""
    for (k, n), _ in product(LARGE + tuple((k, n) for k, n in small_strips(256) if n > 1), range(many)):
        window = unclear(k, n, chance)
        for sections in (cut_near(window, k, n, chance), short_at(window, k, n, chance)):
            for plan in each_record(k, n, sections, chance):
                smudged(plan, window)


def cut_near(window, k, n, chance):
    """Sections that end at, beside or across fillings, at times hundreds more that end anywhere; some left out."""
    fitting, ends = filling_places(k, window), [0]
    some = chance.sample(fitting, min(len(fitting), chance.choice((4, 8, 100))))
    points = [place + chance.choice((-1, 0, 1, n // 2, n - 1, n, n + 1)) for place in some]
    points += [chance.randrange(k**n) for _ in range(chance.choice((0, 0, 390)))]
    for point in sorted(points) + [k**n]:
        if ends[-1] + n <= point <= k**n:
            ends.append(point)
    return [section for section in between(ends) if chance.random() < 0.8]


def short_at(window, k, n, chance):
    """Sections as short as may be: at a filling, often the last, and at some of higher places; a place behind some of lower ones, or two across one."""
    fitting = filling_places(k, window)
    lowest = chance.choice((fitting[-1], chance.choice(fitting)))
    starts = [lowest]
    for place in chance.sample(fitting, min(len(fitting), 12)):
        cut = place + chance.randint(1, n - 1)
        starts += [place] if place > lowest else chance.choice(([], [place + 1], [cut - n, cut]))
    return apart(starts, n, k**n)


def between(ends):
    """Sections that meet, from each of the places to the next."""
    return [(start, end - start) for start, end in zip(ends, ends[1:])]


def large_misread(chance, many):
    """Windows of one section and of 500, some of which touch the next or are welded in pairs: at their starts and ends, over these, and anywhere."""
    for k, n in ((2, 60), (4, 30), (36, 11)):
        strip = strip_of(k, n)
        room = strip.places // 500
        pairs = [(i * room, room - i % 2 * chance.randint(1, room // 8)) for i in range(500)]
        plans = [plan_bytes(k, n, pairs), plan_bytes(k, n, pairs, [i // 2 for i in range(500)])]
        for plan in plans + [either(k, n, spread(strip.places, n, m, chance), chance) for m in (1, 500)]:
            for i in range(many):
                offset, length = chance.choice(model.sections_of(plan))
                at = (offset, offset + length - n, offset + length - n + 1, offset + chance.randrange(length))[i % 4]
                misread(plan, strip.marks(at % strip.places, n))
    whole = plan_bytes(36, 11, [(0, 36**11)])
    assert len(model.misreadings_of(whole, range(20, 31))[1]) == 3850  # no list is longer
    misread(whole, range(20, 31))


def aimed_misread(chance, many):
    """Sections as short as may be, at a window and at some of its changes or a place beside them: on large strips too, lists of no entry, of one, of few."""
    for k, n in LARGE:
        strip = strip_of(k, n)
        for count in [0, 1, 1] + [chance.randint(2, 40) for _ in range(many)]:
            window = tuple(chance.choice((plain, runs))(k, n, chance))
            starts = [strip.place(window)]
            for _ in range(count):
                mark, shade = chance.randrange(n), chance.randrange(k)
                starts.append(strip.place(window[:mark] + (shade,) + window[mark + 1:]) + chance.choice((0, 0, 0, 1, -1)))
            misread(either(k, n, apart(starts, n, strip.places), chance), window)


def apart(starts, n, places):
    """Sections of n marks at those of the places that reach into none before them, nor over the strip's end."""
    kept = []
    for start in starts:
        if 0 <= start <= places - n and all(abs(start - other) >= n for other in kept):
            kept.append(start)
    return [(start, n) for start in sorted(kept)]


def spread(places, n, m, chance):
    """m sections over the whole strip, each second one touching the next."""
    room = places // m
    return [(i * room, room if i % 2 else chance.randint(n, room)) for i in range(m)]


def large_plans(chance, many):
    for k, n in LARGE:
        strip = strip_of(k, n)
        for m in (1, 2, 255, 256, 257, 499, 500):
            sections = spread(strip.places, n, m, chance)
            plan = either(k, n, sections, chance)
            for _ in range(many):
                offset, length = chance.choice(sections)
                at = chance.choice((offset, offset + length - n, offset + length - n + 1, offset + length - 1, offset + chance.randrange(length)))
                look(plan, strip.marks(at % strip.places, n))
            look(either(k, n, bent(sections, n, chance), chance), strip.marks(0, n))
            look(plan, strip.marks(strip.places - 1, n))


def one_broken(sections, j, n, places):
    """The sections with pair j broken, by each rule alone: too early, too short, beginning and ending behind the strip, with a sum of 2^64."""
    offset, length = sections[j]
    pairs = [(offset, n - 1), (places + 1, length), (offset, places - offset + 1), (offset, 2**64 - offset)]
    if j:
        pairs.append((sum(sections[j - 1]) - 1, length))
    for pair in pairs:
        if max(pair) < 2**64:
            yield sections[:j] + [pair] + sections[j + 1:]


def few_sections(chance):
    """Plans without sections, with one, two and three: every place looked up, and each pair broken."""
    for k, n in ((2, 5), (3, 3), (36, 1)):
        places, strip = k**n, strip_of(k, n)
        for m in range(4):
            for gap in (0, 1, n):
                sections = [(i * (places // m), places // m - gap) for i in range(m)]
                for plan, at in product(both(k, n, sections, chance), range(places)):
                    look(plan, strip.marks(at, n))
                for j in range(m):
                    for crooked in one_broken(sections, j, n, places):
                        look_and_bill(either(k, n, crooked, chance), strip.marks(0, n))


def broken_among_500(chance):
    for k, n in LARGE:
        strip = strip_of(k, n)
        sections = spread(strip.places, n, 500, chance)
        for j in (0, 1, 249, 250, 498, 499):
            for crooked in one_broken(sections, j, n, strip.places):
                look_and_bill(either(k, n, crooked, chance), strip.marks(0, n))


def look_and_bill(plan, window):
    look(plan, window)
    bill(plan, 1001, 1)


# Bills

ROLLS = (999, 1000, 1001, MOST_ROLL, MOST_ROLL + 1)
PRICES = (0, 1, 999, 1000, 1001, MOST_PRICE, MOST_PRICE + 1, 2**32 - 1, 2**32, 2**32 + 1000, 2**64 - 1)
CHARGES = (0, 1, MOST_PRICE + 1, MOST_CHARGE, MOST_CHARGE + 1, 2**64 - 1)
FEW = ((1, 0), (MOST_PRICE, MOST_CHARGE), (MOST_PRICE + 1, 0), (0, MOST_CHARGE + 1), (2**64 - 1, 2**64 - 1))


def bills(chance):
    """Plans, prices and charges."""
    yield from bills_of_the_rules()
    yield from bills_at_the_borders(chance)
    yield from bills_near_whole_cents(chance)
    yield from bills_of_many_sections(chance)
    yield from bills_of_long_rolls(chance)
    yield from bills_of_any_plans(chance, 400)
    yield from refused_bills()


def bills_of_the_rules():
    for rails in (None, (7, 8)):
        for sections in ([(0, 1001)], [(0, 1001), (2000, 1001)]):
            for price, charge in ((1, 0), (1, 5), (1000, 0), (0, 5), (MOST_PRICE + 1, 0)):
                yield plan_bytes(2, 12, sections, rails and rails[:len(sections)]), price, charge
        yield plan_bytes(2, 4, [(0, 6), (8, 8)], rails), 250, 100


def rolled(lengths, chance):
    """Sections of these lengths, some of which touch the one ahead."""
    sections, end = [], 0
    for length in lengths:
        start = end + chance.choice((0, 1, chance.randrange(2**20)))
        sections.append((start, length))
        end = start + length
    return sections


def bills_at_the_borders(chance):
    """No section, one, and two, of each length at a border, with each price and each charge there."""
    for k, n in ((2, 60), (36, 11)):
        for lengths in [()] + [pair[:m] for m in (1, 2) for pair in product((n,) + ROLLS, repeat=m)]:
            for price, charge in product(PRICES, CHARGES):
                for plan in both(k, n, rolled(lengths, chance), chance):
                    yield plan, price, charge


def bills_near_whole_cents(chance):
    """A section whose marks cost whole cents, a thousandth or two more, or one less; some of its products have no double of their own."""
    prices = [price for price in (1, 7, 999, 1001) + tuple(range(MOST_PRICE - 40, MOST_PRICE)) if price % 2 and price % 5]
    for price, over, most in product(prices, (0, 1, 2, 999), (5000, MOST_ROLL)):
        length = next(length for length in range(most, 0, -1) if length * price % 1000 == over)
        for plan in both(2, 60, [(0, length)], chance):
            yield plan, price, 1


def some_price(chance):
    """A good price and a good charge, small ones as often as large ones."""
    return chance.randrange(chance.choice((3, 2000, MOST_PRICE + 1))), chance.randrange(chance.choice((3, 2000, MOST_CHARGE + 1)))


def some_length(n, chance):
    return n + chance.randrange(chance.choice((3, 2000, MOST_ROLL + 1 - n)))


def bills_of_many_sections(chance):
    """500 sections, of any lengths, and all as long as may be; the largest bill that there is."""
    for k, n in LARGE:
        for lengths in [[some_length(n, chance) for _ in range(500)] for _ in range(4)] + [[n] * 500, [MOST_ROLL] * 500]:
            for plan in both(k, n, rolled(lengths, chance), chance):
                yield (plan,) + some_price(chance)
    largest = plan_bytes(2, 60, between([MOST_ROLL * i for i in range(501)]))
    assert model.bill(largest, MOST_PRICE, MOST_CHARGE) == (0, 21476983958647500)
    yield largest, MOST_PRICE, MOST_CHARGE


def bills_of_long_rolls(chance):
    """A section that is too long, by a mark or more: the first, the last, and one between them."""
    for (k, n), m in product(((2, 60), (3, 37)), (1, 2, 3, 4, 500)):
        for at, longer in product(sorted({0, m // 2, m - 1}), (1, 1 + chance.randrange(2**40))):
            lengths = [some_length(n, chance) for _ in range(m)]
            lengths[at] = MOST_ROLL + longer
            for plan, (price, charge) in product(both(k, n, rolled(lengths, chance), chance), ((1, 0), (MOST_PRICE + 1, 0))):
                yield plan, price, charge


def bills_of_any_plans(chance, many):
    """Plans of a few sections on small strips, some of them bent, and on large ones, at prices as they come."""
    for _ in range(many):
        k, n = chance.choice(small_strips(300))
        sections = random_sections(k**n, n, chance.randint(1, 6), chance)
        for plan in both(k, n, sections, chance) + [either(k, n, bent(sections, n, chance), chance)]:
            yield (plan,) + some_price(chance)
        k, n = chance.choice(LARGE)
        sections = rolled([some_length(n, chance) for _ in range(chance.randint(1, 9))], chance)
        for plan in both(k, n, sections, chance) + [either(k, n, random_sections(k**n, n, 4, chance), chance)]:
            yield (plan,) + some_price(chance)


def refused_bills():
    """7, 1, 8, 14 and 15: alone and together."""
    rolls = ([(0, 6), (8, 8)], [(0, 6), (5, 8)], [(0, 2**32)], [(0, 64), (64, 2**32)], [(0, 2**32), (64, 64)], [])
    for (k, n), sections, rails in product(((2, 4), (2, 60), (1, 4), (2, 61), (0, 0)), rolls, (None, (7, 7))):
        plan = plan_bytes(k, n, sections, rails and rails[:len(sections)])
        for record, (price, charge) in product([plan] + list(torn(plan)), FEW):
            yield record, price, charge


def main():
    most = int(sys.argv[1]) if len(sys.argv) > 1 else 4096
    chance = random.Random(20261115)
    cases_of_the_rules()
    plans_of_the_rules()
    smudged_of_the_rules()
    misread_of_the_rules()
    cases_of_document_003()
    cases_of_document_004()
    refusals()
    plan_refusals()
    totals()
    for k, n in small_strips(most):
        assert admitted(k, n)
        whole_strip(k, n)
        repeating(k, n, random.Random(n))
    for k, n in LARGE:
        part_of_strip(k, n, chance, 60)
    for k, n in LARGE_RINGS:
        part_of_short(k, n, random.Random(n), 20)
    small_plans(chance, 200)
    large_plans(chance, 6)
    small_smudged(chance, 2)
    large_smudged(chance, 6)
    covered_smudged(chance, 4)
    aimed_smudged(chance, 36)
    small_misread(chance, 2)
    large_misread(chance, 12)
    aimed_misread(chance, 12)
    few_sections(chance)
    broken_among_500(chance)
    joints(chance, 16)
    large_joints(chance)
    pictures(chance)
    picture_refusals()
    for billed in bills(chance):
        bill(*billed)
    check_tally()


if __name__ == "__main__":
    main()
