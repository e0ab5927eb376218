#!/usr/bin/env python3
"""Plans for the program `stripwalk`, and what it must print for a plan, by the model of the rules.

    stripwalk.py < PLAN     prints the listing of a plan
    stripwalk.py --sample   prints the sample plan
"""
import random
import sys
from itertools import combinations_with_replacement, product

import model
from model import LARGE, MOST_MARKS, MOST_SECTIONS, MOST_SHADES, OLD_ENTRY, admitted, entry_bytes, plan_bytes, plan_faults, small_strips
from vectors import bent, random_sections, some_rails, spread, torn


# Plans with a name

SAMPLE = plan_bytes(2, 4, [(0, 6), (8, 8)])


def many(k, n, count):
    """Sections of several lengths, some of them apart, the last up to the end."""
    pairs, place = [], 0
    for i in range(count - 1):
        place += i * 7 % 101
        pairs.append((place, n + i * i % 43))
        place += n + i * i % 43
    return pairs + [(place, k ** n - place)]


def shades():
    """Windows that begin with each shade."""
    k, n = 36, 11
    starts = [0, 11, 25, 500] + [k ** n - (k - a) ** n + 3 * a for a in range(1, 35)] + [k ** n - 1000, k ** n - 23, k ** n - 11]
    return plan_bytes(k, n, [(start, n) for start in starts])


def ends():
    k, n = 2, 60
    size = k ** n
    return plan_bytes(k, n, [(0, n), (n, n + 1), (1000, size // 2), (size - 2000, 70), (size - 500, 300), (size - 121, n), (size - n, n)])


def named_plans():
    full = plan_bytes(6, 6, many(6, 6, MOST_SECTIONS))
    return {
        "sample": SAMPLE,
        "empty": b"",
        "none": plan_bytes(10, 18, []),
        "full": full,
        "torn": SAMPLE + b"\0",
        "long": full + b"\0",
        "strip": plan_bytes(2, 61, [(0, 3)]),
        "crooked": plan_bytes(2, 4, [(0, 8), (7, 5)]),
        "shades": shades(),
        "end": ends(),
    }


# Plans on small strips

SMALL = ((2, 1), (2, 2), (2, 3), (3, 2), (2, 4))


def every_window():
    """Sections of n marks side by side, from each of the first n places: together they begin wherever a section may."""
    for k, n in small_strips(1000):
        for shift in range(n):
            yield plan_bytes(k, n, [(start, n) for start in range(shift, k**n - n + 1, n)])


def one_section():
    """Every offset and every length, up to one behind the strip."""
    for k, n in SMALL:
        for section in product(range(k**n + 2), repeat=2):
            yield plan_bytes(k, n, [section])


def two_sections():
    """The second overlaps the first, touches it, stands apart or comes before it; either may be too short or end behind the strip."""
    for k, n in SMALL:
        places = k**n
        for first in ((0, n - 1), (0, n), (1, n), (0, places - n), (places - n, n), (places - n + 1, n)):
            end = sum(first)
            for offset in sorted({0, end - 1, end, end + 1, places - n, places} - {-1}):
                for length in sorted({n - 1, n, max(0, places - offset), max(0, places - offset) + 1}):
                    yield plan_bytes(k, n, [first, (offset, length)])


def two_good_sections():
    """Every accepted plan of two sections on strips of up to 9 places."""
    for k, n in SMALL[:4]:
        for start, end, later, last in combinations_with_replacement(range(k**n + 1), 4):
            if end - start >= n and last - later >= n:
                yield plan_bytes(k, n, [(start, end - start), (later, last - later)])


def mutated(record, chance):
    """A record with one change: in a byte, in how many there are, or in a section."""
    record, kind = bytearray(record), chance.randrange(6)
    at = chance.randrange(len(record))
    pair = slice(4 + 16 * (at // 16), 20 + 16 * (at // 16))
    moved = record[pair]
    if kind == 0:
        record[at] = chance.randrange(256)
    elif kind == 1:
        record[at] ^= 1 << chance.randrange(8)
    elif kind == 2:
        record.insert(at, chance.randrange(256))
    elif kind == 3:
        record[at:at + 1] = b""
    elif kind == 4:
        record[pair] = moved[8:] + moved[:8]  # offset and length exchanged
    else:
        record[pair] = b""
        record += moved  # the section put last
    return bytes(record)


def random_plans(chance):
    """Good plans; the same with one number moved a little, and with one to three mutations."""
    strips = small_strips(300)
    for _ in range(60):
        k, n = chance.choice(strips)
        sections = random_sections(k**n, n, chance.randint(0, 6), chance)
        plan = plan_bytes(k, n, sections)
        yield plan
        yield plan_bytes(k, n, bent(sections, n, chance))
        for _ in range(3):
            plan = mutated(plan, chance)
            yield plan


# Lengths and counts of records

def recounted(record, count):
    return record[:2] + count.to_bytes(2, "big") + record[4:]


def every_length(chance):
    """Beginnings of a good plan, and junk: as they are, and with the count that fits, or nearly."""
    good = plan_bytes(3, 3, [(0, 3), (3, 5), (9, 4), (20, 7)])
    for size in range(61):
        for record in (good[:size], chance.randbytes(size)):
            yield record
            if size >= 4:
                yield recounted(record, (size - 4) // 16)
                yield recounted(record, (size + 11) // 16)


def counts():
    """Up to the most sections, one more, and counts of which both bytes matter; whole and torn."""
    k, n = 36, 2
    for count in (0, 1, 2, 255, 256, 257, 499, 500, 501, 512):
        plan = plan_bytes(k, n, [(n * i, n) for i in range(count)])
        yield plan
        yield from torn(plan)


def one_moved():
    """500 sections that touch, up to the strip's end; then one of them begins earlier or later, or is shorter or longer."""
    k, n = 36, 2
    first = k**n - n * MOST_SECTIONS
    for at, (later, longer) in product((0, 1, 255, 256, 498, 499), ((0, 0), (-1, 0), (1, 0), (0, -1), (0, 1), (-1, 1), (1, -1))):
        sections = [(first + n * i, n) for i in range(MOST_SECTIONS)]
        sections[at] = (first + n * at + later, n + longer)
        yield plan_bytes(k, n, sections)


def longer_than_the_buffer():
    """stripwalk reads 65,536 bytes at most; a record that goes on behind them is torn all the same."""
    full = plan_bytes(36, 2, [(2 * i, 2) for i in range(MOST_SECTIONS)])
    for size in (65535, 65536, 65537, 65536 + len(full), 200000):
        yield full.ljust(size, b"\0")
        yield (full * 25)[:size]
    for count in (4095, 4096, 65535):
        yield plan_bytes(36, 2, [(2 * i, 2) for i in range(count)])


# Refusals

def refusals_together():
    """7, 1 and 8, alone and together."""
    for k, n in ((2, 4), (1, 4), (2, 0), (2, 61), (37, 1)):
        for sections in ([(0, 6), (8, 8)], [(0, 6), (5, 8)], []):
            plan = plan_bytes(k, n, sections)
            yield plan
            yield from torn(plan)


def limits_of_strips():
    """For each n the most shades and one more; bytes that are no k or no n."""
    for n in range(1, MOST_MARKS + 1):
        most = max(k for k in range(2, MOST_SHADES + 1) if admitted(k, n))
        for k in (most, most + 1):
            yield plan_bytes(k, n, [(0, n), (min(k**n, 2**64) - n, n)])
    for k, n in product((0, 1, 2, 36, 37, 128, 255), (0, 1, 11, 12, 60, 61, 128, 255)):
        yield plan_bytes(k, n, [(0, n)])
        yield plan_bytes(k, n, [])


def huge_numbers():
    """Numbers up to 2^64 - 1, and ends that in 64 bits would be places of the strip again."""
    top = 2**64
    for k, n in ((2, 4), (2, 60)):
        places = k**n
        for section in product((0, n, places - n, places, 2**60, 2**63, top - places, top - n, top - 1), repeat=2):
            yield plan_bytes(k, n, [section])
        for short, end in product((1, n, places), (0, n, places)):
            section = (top - short, short + end)
            yield plan_bytes(k, n, [section])
            yield plan_bytes(k, n, [(0, n), section])
            yield plan_bytes(k, n, [section, (end, n)])


# Large strips

def large_strips(chance):
    """Sections at the start, in the middle and at the end."""
    for k, n in LARGE:
        places = k**n
        half = places // 2
        yield plan_bytes(k, n, [(0, n), (half, n), (places - n, n)])
        yield plan_bytes(k, n, [(0, half), (half, places - half)])
        yield plan_bytes(k, n, [(half - n, n), (half - 1, n)])
        yield plan_bytes(k, n, [(0, places)])
        yield plan_bytes(k, n, [(0, places + 1)])
        yield plan_bytes(k, n, [(places - n + 1, n)])
        yield plan_bytes(k, n, random_sections(places, n, 4, chance))
        yield plan_bytes(k, n, spread(places, n, 6, chance))


# All of them

def plans():
    """Plans with their labels, each once."""
    chance = random.Random(20261115)
    kinds = {
        "every window": every_window(),
        "one section": one_section(),
        "two sections": two_sections(),
        "two good sections": two_good_sections(),
        "random plan": random_plans(chance),
        "length": every_length(chance),
        "count": counts(),
        "one moved": one_moved(),
        "longer than the buffer": longer_than_the_buffer(),
        "refusals": refusals_together(),
        "limit of a strip": limits_of_strips(),
        "huge number": huge_numbers(),
        "large strip": large_strips(chance),
    }
    labelled = {plan: name for name, plan in named_plans().items()}
    for kind, plans in kinds.items():
        for i, plan in enumerate(plans):
            labelled.setdefault(plan, "%s %d" % (kind, i))
    return [(label, plan) for plan, label in labelled.items()]


def listing(plan):
    """What stripwalk must write for a plan."""
    return model.stripwalk(plan).encode()


def with_rails(plan, chance):
    """The new record with the sections of an old one."""
    entries = [plan[at:at + OLD_ENTRY] for at in range(4, len(plan), OLD_ENTRY)]
    rails = some_rails(len(entries), chance)
    return plan[:4] + b"".join(entry + rail.to_bytes(2, "big") for entry, rail in zip(entries, rails))


def inputs():
    """A label, the input, and what must be written for it. An old record that is not torn comes with rails too, for which the same is written, and as such
    a record without its last byte, which is torn."""
    chance = random.Random(20261116)
    for label, plan in plans():
        yield label, plan, listing(plan)
        if len(plan) > 4 and entry_bytes(plan) == OLD_ENTRY and plan_faults(plan) != {7}:
            railed = with_rails(plan, chance)
            assert listing(railed) == listing(plan)
            yield label + " with rails", railed, listing(plan)
            yield label + " with a rail cut", railed[:-1], b"refused 7\n"


if __name__ == "__main__":
    sys.stdout.buffer.write(SAMPLE if sys.argv[1:] == ["--sample"] else listing(sys.stdin.buffer.read()))
