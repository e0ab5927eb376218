#!/usr/bin/env python3
"""What the program `cases` must print, by the model of the rules."""
import model
from model import lyndon_count, lyndon_test, plan_bytes, rank_of, rotation_of, shortest_root


def digits(word):
    return "".join(map(str, word))


def into(tray, answer):
    return answer + tray[len(answer):]


def rank(k, n, word):
    fault, answer = rank_of(k, n, word)
    print("rank", k, n, digits(word), fault, bytes(into([170] * 10, list(answer))).hex())


def word_of(k, n, index):
    fault, answer = model.word_of(k, n, index)
    print("word", k, n, index, fault, digits(into([7] * 8, list(answer))))


def words(k, n, last):
    for index in range(last + 1):
        word_of(k, n, index)


def count(k, n):
    print("count", k, n, *lyndon_count(k, n))


def tests(k, n, word):
    print("lyndon", k, n, digits(word), *lyndon_test(k, n, word))
    print("root", k, n, digits(word), *shortest_root(k, n, word))
    fault, turn, answer = rotation_of(k, n, word, 8)
    print("rotation", k, n, digits(word), fault, digits(into([7] * 8, list(answer))), turn)


def bill(plan, price, charge):
    print("bill", plan.hex(), price, charge, *model.bill(plan, price, charge))


def main():
    for k, n, word in ((3, 2, (0, 0)), (3, 2, (2, 2)), (3, 2, (3, 0)), (3, 2, (0,)), (4, 1, (2,)), (1, 6, (0,))):
        rank(k, n, word)
    words(2, 6, 10)
    for k, n in ((2, 6), (37, 1), (2, 61), (2, 60), (36, 11), (36, 12)):
        count(k, n)
    for k, n, last in ((2, 5, 7), (2, 1, 3), (2, 2, 2), (2, 3, 3)):
        words(k, n, last)
    rank(2, 6, (0, 1, 1, 0, 1, 0))
    rank(2, 6, (0, 1, 0, 1, 1, 1))
    for k, n, word in (
        (2, 6, (0, 1, 1, 0, 1, 0)),
        (2, 6, (0, 1, 0, 1, 1, 1)),
        (2, 6, (1, 0, 0, 1, 0, 0)),
        (2, 6, (1, 1, 1, 1, 1, 1)),
        (3, 2, (2, 3)),
        (3, 2, (2, 1, 0)),
        (2, 6, (1, 0, 1, 0, 1, 0)),
        (2, 4, (0, 0, 0, 0)),
        (2, 4, (1, 1, 1, 1)),
        (2, 4, (0, 1, 1, 0)),
        (3, 1, (2,)),
        (37, 1, (0,)),
        (2, 9, (0, 0, 0, 0, 0, 0, 0, 0, 1)),
    ):
        tests(k, n, word)
    one, two = plan_bytes(2, 12, [(0, 1001)]), plan_bytes(2, 12, [(0, 1001), (2000, 1001)])
    for plan, price, charge in ((one, 1, 0), (two, 1, 0), (two, 1, 5), (one, 1000, 0), (one, 10000001, 0), (one[:3], 1, 0)):
        bill(plan, price, charge)


if __name__ == "__main__":
    main()
