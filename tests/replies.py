#!/usr/bin/env python3
"""Asks for the program `replies`, and the lines that it must write for them, by the model of the rules.

    replies.py < REQUEST    prints the lines for a request, which is asks one after the other
    replies.py --sample     prints a small request with every kind of ask

crates/replies/src/main.rt says how an ask is written.
"""
import random
import re
import sys
from itertools import product

import model
import stripwalk
from model import (LARGE, MOST_MARKS, MOST_PLACES, MOST_PRICE, MOST_SHADES, cursor_start, cursor_with, number, plan_bytes, short_of, small_strips,
                   strip_of)
from vectors import HUGE, bills, both, either, plain, random_sections, repeated, runs, some_price, some_word, spread, topped, torn

MOST_BYTES = 65536  # of a request
TRAY, PAPER, BEFORE = 64, 512, 170  # bytes of the tray, of that for a picture or a list, and what each holds before the call
CHANGE = 10  # bytes of an entry of a list

# The numbers that each call can give; the asks below bring each of them about.
GIVES = {
    "is_lyndon": (0, 1, 2, 3),
    "shortest_root": (0, 1, 2, 3),
    "smallest_rotation": (0, 1, 2, 3, 6),
    "lyndon_count": (0, 1),
    "print_picture": (0, 1, 4, 6, 12, 13),
    "check_plan": (0, 1, 7, 8),
    "misreadings": (0, 1, 2, 3, 6, 7, 8, 9),
    "bill": (0, 1, 7, 8, 14, 15),
    "start_cursor": (0, 1, 4),
    "cursor_place": (0, 1, 10),
    "step": (0, 1, 10),
    "step_cursor": (0, 1, 10),
    "step_back": (0, 1, 10),
    "short_start_cursor": (0, 1, 4),
    "short_cursor_place": (0, 1, 10),
    "short_step": (0, 1, 10),
    "short_step_back": (0, 1, 10),
}


# The lines for a request

def line(call, *fields):
    return " ".join([call] + [str(field) for field in fields])


def fields_of(cursor):
    k, n, letters, length, at = cursor
    return (k, n) + letters + (length, at)


def numbers_in(body):
    return [int.from_bytes(body[at:at + 8], "big") for at in range(0, len(body), 8)]


def word_lines(body):
    (k, n), lent, word = numbers_in(body[:16]), body[16], body[17:]
    fault, turn, rotation = model.rotation_of(k, n, word, lent)
    yield line("is_lyndon", *model.lyndon_test(k, n, word))
    yield line("shortest_root", *model.shortest_root(k, n, word))
    yield line("smallest_rotation", fault, turn, *rotation.ljust(TRAY, bytes([BEFORE])))
    yield line("lyndon_count", *model.lyndon_count(k, n))


def picture_lines(body):
    lent = int.from_bytes(body[40:], "big")
    fault, file = model.picture_of(*numbers_in(body[:40]))
    if lent < len(file):
        fault, file = 6, b""
    yield line("print_picture", fault, len(file), *file.ljust(PAPER, bytes([BEFORE])))


def plan_lines(plan):
    yield line("check_plan", model.first(model.plan_faults(plan)))


def misread_lines(body):
    lent, length = int.from_bytes(body[:2], "big"), body[2]
    fault, entries = model.misreadings_of(body[3 + length:], body[3:3 + length])
    if lent < len(entries):
        fault, entries = 6, b""
    yield line("misreadings", fault, len(entries) // CHANGE, *entries.ljust(PAPER, bytes([BEFORE])))


def bill_lines(body):
    yield line("bill", *model.bill(body[16:], *numbers_in(body[:16])))


def start_lines(body):
    for call, ring in (("start_cursor", strip_of), ("short_start_cursor", short_of)):
        fault, cursor = cursor_start(*numbers_in(body), ring)
        yield line(call, fault, *fields_of(cursor))


def moved_lines(cursor, ring, moves):
    for call, move in moves:
        fault, mark, passed, moved = move(cursor, ring)
        yield line(call, fault, mark, passed, *fields_of(moved))


def cursor_lines(body):
    cursor = body[0], body[1], tuple(body[2:62]), body[62], body[63]
    on, back = model.cursor_step, model.cursor_back
    yield line("cursor_place", *model.cursor_place(cursor))
    yield from moved_lines(cursor, strip_of, (("step", on), ("step_cursor", on), ("step_back", back)))
    yield line("short_cursor_place", *model.cursor_place(cursor, short_of))
    yield from moved_lines(cursor, short_of, (("short_step", on), ("short_step_back", back)))


LINES = {b"w": word_lines, b"i": picture_lines, b"p": plan_lines, b"m": misread_lines, b"b": bill_lines, b"s": start_lines, b"c": cursor_lines}


def answer(request):
    """The lines for each ask of a request."""
    lines, at = [], 0
    while at < len(request):
        end = at + 3 + int.from_bytes(request[at + 1:at + 3], "big")
        lines += LINES[request[at:at + 1]](request[at + 3:end])
        at = end
    return "".join(text + "\n" for text in lines).encode()


# Asks

def ask(letter, body):
    return letter + len(body).to_bytes(2, "big") + bytes(body)


def ask_word(k, n, word, lent):
    return ask(b"w", number(k) + number(n) + bytes([lent]) + bytes(word))


def ask_picture(k, n, place, width, height, lent):
    return ask(b"i", b"".join(map(number, (k, n, place, width, height))) + lent.to_bytes(2, "big"))


def ask_misread(plan, window, lent):
    return ask(b"m", lent.to_bytes(2, "big") + bytes([len(window)]) + bytes(window) + plan)


def ask_bill(plan, price, charge):
    return ask(b"b", number(price) + number(charge) + plan)


def ask_start(k, n, place):
    return ask(b"s", number(k) + number(n) + number(place))


def ask_cursor(cursor):
    return ask(b"c", bytes(fields_of(cursor)))


def sample():
    good = cursor_start(2, 6, 28)[1]
    first, last, shorter = (cursor_with(2, 6, model.letters(word), at) for word, at in (("000001", 0), ("011111", 5), ("001", 2)))
    return b"".join((
        ask_word(2, 6, (0, 1, 1, 0, 1, 0), 9), ask_word(2, 6, (0, 1, 2, 0, 1, 0), 9), ask_word(2, 6, (0, 1, 0, 1, 1, 1), 5),
        ask_picture(2, 4, 4, 5, 2, 21), ask_picture(3, 4, 4, 5, 2, 21), ask_picture(2, 4, 4, 5, 2, 18),
        ask(b"p", stripwalk.SAMPLE), ask(b"p", plan_bytes(2, 4, [(0, 8), (7, 5)])),
        ask_misread(stripwalk.SAMPLE, (1, 0, 1, 1), 23), ask_misread(stripwalk.SAMPLE, (1, 0, 0, 1), 23),
        ask_bill(stripwalk.SAMPLE, 250, 100), ask_bill(stripwalk.SAMPLE, MOST_PRICE + 1, 100), ask_bill(stripwalk.SAMPLE[:-1], 250, 100),
        ask_start(2, 6, 28), ask_start(2, 6, 64), ask_cursor(good), ask_cursor(good[:4] + (6,)),
        ask_start(2, 6, 53), ask_start(2, 6, 54), ask_start(2, 61, 0),
        ask_cursor(first), ask_cursor(last), ask_cursor(shorter), ask_cursor((1,) + good[1:]),
    ))


# Words

def every_word():
    """Each word of each small strip, in a tray that is longer than the word."""
    for k, n in small_strips(300):
        for word in model.words(k, n):
            yield ask_word(k, n, word, n + 3)


def large_words(chance):
    """Words of large strips, and words near their smallest rotations, where Lyndon words are; trays from the exact length on."""
    for k, n in LARGE:
        for make, _ in product((runs, repeated, plain, topped), range(12)):
            word = tuple(make(k, n, chance))
            smallest = model.smallest_rotation(word)
            raised = smallest[:-1] + (min(k - 1, smallest[-1] + 1),)
            for near in (word, smallest, raised):
                yield ask_word(k, n, near, chance.randint(n, TRAY))


def every_tray():
    """A word in trays of each length, too small and longer."""
    for k, n in ((2, 1), (36, 1), (2, 2), (3, 4), (2, 6)) + LARGE:
        for lent in range(TRAY + 1):
            yield ask_word(k, n, (1,) + (0,) * (n - 1), lent)


def every_strip():
    """One word over each k and n within the limits and just outside: each number of Lyndon words, and where strips end."""
    for k, n in product(range(MOST_SHADES + 3), range(MOST_MARKS + 3)):
        yield ask_word(k, n, (0,) * n, min(n, TRAY))


def refused_words():
    """Marks too few or too many, a mark too large, no such strip, a tray too small: alone and together."""
    far = (2**8 + 3, 4), (3, 2**8 + 4), (2**32 + 3, 4), (3, 2**32 + 4), (2**64 - 1, 4), (3, 2**64 - 1)
    for k, n in ((3, 4), (2, 6), (36, 1), (36, 11), (2, 60), (1, 4), (37, 1), (2, 61)) + far:
        right = n if n <= 62 else 4
        for length, lent in product((right, right - 1, right + 1, 0), (0, right - 1, right, TRAY)):
            yield ask_word(k, n, (0,) * length, lent)
            for at, bad in product(range(length), (min(k, 255), 255)):
                yield ask_word(k, n, (0,) * at + (bad,) + (0,) * (length - at - 1), lent)


# Pictures

def pictures():
    """Widths that fill lines, one more and one less, in trays one too short, exact and longer."""
    for n in (1, 3, 9, 60):
        for place, width, height in product((0, 2**n - 1), (1, 2, 69, 70, 71, 140, 141, 490), (1, 2, 3, 64)):
            size = len(model.picture_of(2, n, place, width, height)[1])
            for lent in {0, min(size - 1, PAPER), min(size, PAPER), PAPER}:
                yield ask_picture(2, n, place, width, height, lent)


def refused_pictures():
    """1, 12, 4, 13 and 6: alone and together."""
    sizes = ((1, 1), (60000, 64), (0, 1), (60001, 1), (1, 0), (1, 65), (2**32 + 1, 1), (1, 2**64 - 1))
    for (k, n), place, (width, height), lent in product(((2, 4), (3, 4), (1, 4), (36, 12), (2, 61), (2**32 + 2, 4)), (0, 15, 16, 2**63), sizes, (0, 9, PAPER)):
        yield ask_picture(k, n, place, width, height, lent)


# Misreadings

def lists(plan, window):
    """A window in trays of no bytes, an entry and a byte too short, exact and longer, as far as there is paper."""
    size = len(model.misreadings_of(plan, window)[1])
    for lent in sorted({0, size - CHANGE, size - 1, size, size + 3, PAPER}):
        if 0 <= lent <= PAPER:
            yield ask_misread(plan, window, lent)


def every_list(chance):
    """Each window, laid or not, in plans of no section, of the whole strip, of two that touch, and in such as come; some of a longer strip in every tray."""
    for k, n in ((2, 1), (2, 2), (2, 4), (3, 2), (5, 1), (4, 2), (2, 5), (36, 1), (9, 2)):
        places = k**n
        half = max(n, places // 2)
        plans = [either(k, n, sections, chance) for sections in ([], [(0, places)])] + both(k, n, [(0, half), (half, places - half)], chance)
        for _ in range(2):
            plans += both(k, n, random_sections(places, n, 4, chance), chance)
        for plan, window in product(plans, model.words(k, n)):
            yield from lists(plan, window) if chance.random() < 32 / places else [ask_misread(plan, window, PAPER)]


def large_lists(chance):
    """Windows of large strips, of which the lists are often longer than the paper, in plans of one section and of 500."""
    for (k, n), m in product(LARGE, (1, 500)):
        plan = either(k, n, spread(k**n, n, m, chance), chance)
        for make in (runs, repeated, plain, topped):
            yield ask_misread(plan, make(k, n, chance), chance.choice((0, 100, PAPER)))
        offset, length = chance.choice(model.sections_of(plan))
        yield ask_misread(plan, strip_of(k, n).marks(offset + length - n, n), PAPER)


def refused_lists():
    """7, 1, 8, 2, 3, 9 and 6: alone and together."""
    windows = ((0, 0, 0, 0), (2,) * 5, (1, 0, 0, 0), (1, 0, 1, 1), (0, 0, 0), (0,) * 5, (0, 0, 0, 2), (0, 255, 0, 0), (255, 0, 0), (255,) * 255, ())
    for k, n in ((2, 4), (1, 4), (37, 1), (2, 61), (0, 0), (255, 255)):
        for sections, rails in product(([(0, 6), (8, 8)], [(0, 6), (5, 8)], [(12, 4)], []), (None, (7, 7))):
            plan = plan_bytes(k, n, sections, rails and rails[:len(sections)])
            for window, lent in product(windows, (0, PAPER)):
                yield ask_misread(plan, window, lent)
            for broken, window in product(torn(plan), windows[:2]):
                yield ask_misread(broken, window, PAPER)


def changed_plan(k, n, chance):
    """A good plan with up to two of its bytes changed."""
    plan = bytearray(either(k, n, random_sections(k**n, n, 3, chance), chance))
    for _ in range(chance.randrange(3)):
        plan[chance.randrange(len(plan))] = chance.choice((0, 1, 7, chance.randrange(256)))
    return bytes(plan)


def junk_lists(chance):
    """Good plans with a few bytes changed, and bytes of any kind; windows of any kind."""
    for _ in range(600):
        k, n = chance.choice(small_strips(64))
        plan = changed_plan(k, n, chance)
        window = [chance.randrange(k) if chance.random() < 0.98 else chance.randrange(256) for _ in range(n + chance.choice((0, 0, 0, 0, 1)))]
        yield ask_misread(plan, window, chance.randrange(PAPER + 1))
        yield ask_misread(chance.randbytes(chance.randrange(60)), chance.randbytes(chance.randrange(9)), chance.randrange(PAPER + 1))


# Bills

def every_bill(chance):
    """Those of the vectors: at each border, of many sections, of long rolls, of torn and crooked plans."""
    for plan, price, charge in bills(chance):
        yield ask_bill(plan, price, charge)


def junk_bills(chance):
    """Good plans with a few bytes changed, and bytes of any kind."""
    for _ in range(300):
        yield ask_bill(changed_plan(*chance.choice(small_strips(64)), chance), *some_price(chance))
        yield ask_bill(chance.randbytes(chance.randrange(60)), *some_price(chance))


# Starts

def every_start():
    """Each place of each small strip, and places behind its end."""
    for k, n in small_strips(64):
        for place in list(range(k**n + 2)) + list(HUGE):
            yield ask_start(k, n, place)


def large_places(chance):
    """Places of large strips: at both ends, in the middle, anywhere."""
    for k, n in LARGE:
        size = k**n
        for place in (0, 1, n, size // k, size - n, size - 1, chance.randrange(size), chance.randrange(size)):
            yield k, n, place


def large_starts(chance):
    for k, n, place in large_places(chance):
        yield ask_start(k, n, place)
        yield ask_start(k, n, k**n + place)


def short_starts(chance):
    """Places of large short rings: at a word's start and its end, and on both sides of the ring's end; behind it the strip has places yet."""
    for k, n in LARGE:
        size = short_of(k, n).places
        word = chance.randrange(size) // n * n
        for place in (n - 1, n, word, word + n - 1, size - n - 1, size - n, size - 1, size, size + 1, size + n, chance.randrange(size, k**n)):
            yield ask_start(k, n, place)


NO_STRIPS = ((0, 0), (0, 6), (1, 6), (2, 0), (2, 61), (37, 1), (36, 12), (255, 255))


def refused_starts():
    for (k, n), place in product(NO_STRIPS + ((2**8 + 2, 6), (2, 2**8 + 6), (2**32 + 2, 6), (2, 2**64 - 1)), (0, 1, 63, 64, MOST_PLACES)):
        yield ask_start(k, n, place)


# Cursors

def standing(k, n):
    """Every cursor on a small strip, as the rules have it: each word with each place in it."""
    return [cursor_with(k, n, word, at) for word in strip_of(k, n).words for at in range(len(word))]


def every_cursor():
    for k, n in small_strips(64):
        yield from map(ask_cursor, standing(k, n))


def large_cursors(chance):
    """Cursors on large strips, on the first and the last mark of their word too, from which a step goes to another word; and the same with one
    fault."""
    for k, n, place in large_places(chance):
        _, cursor = cursor_start(k, n, place)
        for at in (cursor[4], 0, cursor[3] - 1):
            yield ask_cursor(with_place(cursor, at))
        yield from map(ask_cursor, single_faults(cursor))


def short_cursors(chance):
    """Cursors on large short rings, at the first and the last mark of a word: of the ring's first and last word, of some, and of those beside a shorter
    word of the strip; some with one fault. And cursors on words of every length that divides n, of which only n is one of the ring's."""
    for k, n in LARGE:
        ring, strip = short_of(k, n), strip_of(k, n)
        some = [some_word(k, d, chance) for d in model.divisors(n)]
        beside = [strip.before(word) for word in some] + [strip.after(word) for word in some]
        words = [ring.first, ring.last, some_word(k, n, chance)] + some + [word for word in beside if word]
        for word in words:
            for at in sorted({0, len(word) - 1}):
                yield ask_cursor(cursor_with(k, n, word, at))
        for word in words[:4]:
            yield from map(ask_cursor, single_faults(cursor_with(k, n, word, chance.randrange(len(word)))))


def with_word(cursor, word, at=0):
    return cursor_with(cursor[0], cursor[1], word, at)


def with_letter(cursor, at, letter):
    k, n, letters, length, place = cursor
    return k, n, letters[:at] + (letter,) + letters[at + 1:], length, place


def with_length(cursor, length):
    return cursor[:3] + (length, cursor[4])


def with_place(cursor, place):
    return cursor[:4] + (place,)


def single_faults(cursor):
    """The cursor with one fault of each kind: most are lost; a few are cursors of another word."""
    k, n, _, length, at = cursor
    word = model.held(cursor)
    for other in (0, length - 1, length + 1, 2 * length, n + 1, MOST_MARKS, MOST_MARKS + 1, 255):
        yield with_length(cursor, other)
    for d in (2, 3, 4, 5, 7, n - 1, n + 1):
        if 1 < d <= MOST_MARKS and n % d:
            yield with_word(cursor, (0,) * (d - 1) + (1,))  # a Lyndon word, but of a length that does not divide n
    for letter in (k, 255):
        yield with_letter(cursor, 0, letter)
        yield with_letter(cursor, length - 1, letter)
    for other in model.rotations(word)[1:3] + [word * 2, (0,) * n, (k - 1,) * n]:
        yield with_word(cursor, other[:MOST_MARKS], at)  # no Lyndon word, if it has two letters or more
    for behind in sorted({length, n - 1, n, MOST_MARKS - 1}):
        if length <= behind < MOST_MARKS:
            yield with_letter(cursor, behind, 1)
    for place in (length, length + 1, n, 255):
        yield with_place(cursor, place)


def lost_cursors():
    """Single faults of every cursor on a small strip that stands on a word's first or last mark."""
    for k, n in [(2, 1), (36, 1)] + [strip for strip in small_strips(64) if strip[1] > 1]:
        for cursor in standing(k, n):
            if cursor[4] in (0, cursor[3] - 1):
                yield from map(ask_cursor, single_faults(cursor))


def cursors_of_no_strip():
    """1 comes before 10: cursors over no strip, with a word and without fault but that, or lost as well."""
    for (k, n), word, at, behind in product(NO_STRIPS, ((0,), (0, 1), (0, 0, 1), (1, 0), ()), (0, 1, 9), (0, 1)):
        cursor = cursor_with(k, n, word, at)
        yield ask_cursor(with_letter(cursor, MOST_MARKS - 1, behind))


def changed(cursor, times, chance):
    """The cursor with so many bytes changed, most of them where a change tells: its strip, length, place and first letters."""
    fields = list(fields_of(cursor))
    for _ in range(times):
        at = chance.choice((0, 1, 62, 63, 2, 3, chance.randrange(2, 62)))
        fields[at] = chance.choice((chance.randrange(256), fields[at] ^ 1, (fields[at] + 1) % 256))
    return fields[0], fields[1], tuple(fields[2:62]), fields[62], fields[63]


def junk_cursors(chance):
    """Bytes of any kind, small bytes, and good cursors with one to three bytes changed."""
    strips = small_strips(300)
    for _ in range(400):
        yield ask(b"c", chance.randbytes(64))
        yield ask(b"c", bytes(chance.randrange(chance.choice((2, 3, 7))) for _ in range(64)))
        k, n = chance.choice(strips)
        _, good = cursor_start(k, n, chance.randrange(k**n))
        yield ask_cursor(changed(good, chance.randint(1, 3), chance))


# Plans

def plans():
    """Those of stripwalk, but for the few that are longer than a request."""
    for _, plan, _ in stripwalk.inputs():
        if len(plan) <= MOST_BYTES - 3:
            yield ask(b"p", plan)


# Requests

def packed(asks):
    """The asks in as few requests as hold them."""
    request = b""
    for one in asks:
        if len(request) + len(one) > MOST_BYTES:
            yield request
            request = b""
        request += one
    yield request


def requests():
    """Requests with their labels."""
    chance = random.Random(20261115)
    kinds = {
        "every word": every_word(),
        "large words": large_words(chance),
        "every tray": every_tray(),
        "every strip": every_strip(),
        "refused words": refused_words(),
        "pictures": pictures(),
        "refused pictures": refused_pictures(),
        "every list": every_list(chance),
        "large lists": large_lists(chance),
        "refused lists": refused_lists(),
        "junk lists": junk_lists(chance),
        "every bill": every_bill(chance),
        "junk bills": junk_bills(chance),
        "every start": every_start(),
        "large starts": large_starts(chance),
        "short starts": short_starts(random.Random(1)),
        "refused starts": refused_starts(),
        "every cursor": every_cursor(),
        "large cursors": large_cursors(chance),
        "short cursors": short_cursors(random.Random(2)),
        "lost cursors": lost_cursors(),
        "cursors of no strip": cursors_of_no_strip(),
        "junk cursors": junk_cursors(chance),
        "plans": plans(),
    }
    yield "sample", sample()
    for kind, asks in kinds.items():
        for i, request in enumerate(packed(asks)):
            yield "%s %d" % (kind, i), request


def inputs():
    """A label, the request, and what must be written for it; at the end every call has given each of its numbers, and no other."""
    seen = set()
    for label, request in requests():
        expected = answer(request)
        seen.update(re.findall(r"^\w+ \d+", expected.decode(), re.M))
        yield label, request, expected
    differ = seen ^ {line(call, given) for call, numbers in GIVES.items() for given in numbers}
    if differ:
        sys.exit("replies: given by the asks or by the table GIVES alone: %s" % ", ".join(sorted(differ)))


if __name__ == "__main__":
    sys.stdout.buffer.write(sample() if sys.argv[1:] == ["--sample"] else answer(sys.stdin.buffer.read()))
