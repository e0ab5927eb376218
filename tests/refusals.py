#!/usr/bin/env python3
"""Compares the numbers, names and order of the refusals wherever they are written.

The cases of the enum Refusal and the definition `order` of Order.antt are the reference. C leaves out the numbers of which strip.h says that
no call there gives them. Prints one line if all agree; else a line for each place that differs, or in which nothing is found to compare.
"""
import re
import sys
from pathlib import Path

import model

ROOT = Path(__file__).resolve().parent.parent
SOURCE = "crates/calls/src/refusal.rt"
CODES = "crates/calls/specs/Codes.antt"
SPECS = "crates/calls/specs/Order.antt"
HEADER = "include/strip.h"
README = "README.md"
MODEL = "tests/model.py"
JUNK = "tests/hostile.c"
EXAMPLES = "examples/run"
FINE = "FINE"  # the number 0, which is no refusal

wrong = []


def text_of(file):
    path = ROOT / file
    return path.read_text() if path.is_file() else ""


def plain(text):
    """A text on one line, without the signs that begin a comment's lines."""
    return re.sub(r"\n\s*(//|--|\*)?\s*", " ", text)


def numbers(text):
    return [int(number) for number in re.findall(r"\d+", text)]


def order_in(file):
    """The list after the word `order` in a file."""
    found = re.search(r"\border(?: is|:)? (\d+(?:, \d+)+)", plain(text_of(file)))
    return numbers(found[1]) if found else []


def order_defined():
    """The list that is the definition `order`."""
    found = re.search(r"^order\s*=\s*((?:\d+\s*∷\s*)+)\[\]\s*$", text_of(SPECS), re.M)
    return numbers(found[1]) if found else []


def spoken(name):
    """NO_SUCH_STRIP as it is written in a text."""
    return name.lower().replace("_", " ")


def same(file, what, found, expected):
    """Notes what differs: the entries that only one of two lists has, or both lists if only their order differs."""
    if not found:
        wrong.append("%s: no %s found" % (file, what))
    elif found != expected:
        more = [one for one in found if one not in expected]
        less = [one for one in expected if one not in found]
        more, less = (more, less) if more or less else (found, expected)
        wrong.append("%s: %s: %s; expected: %s" % (file, what, more, less))


def reference():
    """Names by number, and the order."""
    cases = re.findall(r"^    ([A-Z][A-Za-z]+) = (\d+),$", text_of(SOURCE), re.M)
    pairs = [(re.sub(r"(?<!^)(?=[A-Z])", "_", case).upper(), number) for case, number in cases]
    names = {int(number): name for name, number in pairs}
    same(CODES, "codes", re.findall(r"^code ([A-Z][A-Za-z]+) = (\d+)$", text_of(CODES), re.M), cases)
    order = order_defined()
    same(SOURCE, "numbers", sorted(int(number) for _, number in pairs), sorted(names))
    same(SPECS, "numbers in the definition `order`", sorted(order), sorted(names))
    return names, order


def left_out_of_c():
    found = re.search(r"No call here gives (\d+(?:, \d+)*)", plain(text_of(HEADER)))
    return numbers(found[1]) if found else []


def check_header(names, order):
    text, left_out = text_of(HEADER), left_out_of_c()
    given = {number: name for number, name in names.items() if number not in left_out}
    order = [number for number in order if number not in left_out]
    constants = [(int(number), name) for name, number in re.findall(r"\bSTRIP_([A-Z_]+) = (\d+)", text)]
    if set(left_out) - set(names):
        wrong.append("%s: leaves out numbers that are none: %s" % (HEADER, left_out))
    same(HEADER, "order", order_in(HEADER), order)
    same(HEADER, "constants", constants, [(0, FINE)] + sorted(given.items()))
    meanings = re.findall(r'case STRIP_([A-Z_]+): return "([^"]*)"', text)
    same(HEADER, "meanings", meanings, [(name, spoken(name)) for _, name in constants])
    lists = [numbers(found) for found in re.findall(r"Refusals: (\d+(?:, \d+)*)", plain(text))]
    same(HEADER, "lists of a call's refusals", lists, [[number for number in order if number in found] for found in lists])


def check_readme(names, order):
    section = text_of(README).partition("\n## Refusals\n")[2].partition("\n## ")[0]
    rows = [(int(number), name) for number, name in re.findall(r"^\| (\d+) \| ([^|]*?) \|", section, re.M)]
    same(README, "table", rows, [(number, spoken(names[number])) for number in order if number in names])


def check_tests(order):
    same(MODEL, "order", list(getattr(model, "ORDER", ())), order)
    in_order = re.search(r"#define IN_ORDER\(X\)((?:[\s\\]+X\(\d+\))+)", text_of(JUNK))
    same(JUNK, "order", numbers(in_order[1]) if in_order else [], order)


def check_examples(names):
    shown = [(int(number), name) for number, name in re.findall(r"refused (\d+), ([a-z ]+)", text_of(EXAMPLES))]
    same(EXAMPLES, "refusals that are printed", shown, [(number, spoken(names.get(number, ""))) for number, _ in shown])


def main():
    names, order = reference()
    same(SOURCE, "order", order_in(SOURCE), order)
    check_header(names, order)
    check_readme(names, order)
    check_tests(order)
    check_examples(names)
    if wrong:
        sys.exit("\n".join("refusals: " + line for line in wrong))
    print("refusals: %d numbers have the same names and order in the source, its definitions, the header, the README, the tests and the examples"
          % len(names))


if __name__ == "__main__":
    main()
