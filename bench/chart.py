#!/usr/bin/env python3
"""Turns the ratios that bench prints into docs/BENCH.md and docs/bench.svg, and prints the table."""
import math
import sys

BARS = (("document 004 as published", "#b0713a"), ("this library", "#2f6f9f"), ("best C", "#7a9a4a"), ("memcpy", "#999999"))
ABOUT = """# Measurements

Written by `bash bench/run`: each call beside the same call in C, over the same random inputs, in one run, the least time of several rounds.
Before it is measured, all answers are compared. Ratios only; on a busy machine they move from run to run, those beside memcpy most.

- **Document 004 as published** (`bench/plain.c`): one table of path counts for each size, O(n^3) for the size of CS, words by bisecting letters;
  the turn, of which the document has no more than the definition, by writing out every rotation.
- **Best C** (`bench/best.c`): the fastest that we could write, with a shorter way to count (its opening comment) and no proof.
  For a cursor's step (`bench/strides.c`, called from no C): the same tests and steps, a million on each strip.
- **memcpy**: copying as many bytes as were printed.

Document 004 ranks and lists the words of the short ring, in its Example 3, and has no place of a window there: the column beside it stands for a search
in two words and those behind them, that of the window's smallest rotation and the last one below the window's rest.

A picture has 60,000 marks in 64 rows, the most that there may be; document 004 has none, so the column beside it stands for its marks, written
a byte at a time.

Plans have 500 sections, with rails, and are welded in pairs. Half of look_up's windows cross a joint. A smudged window has two unread marks; all its
fillings are tried, 4, 16 and 1,296 on the three strips, of which most are laid. Both C programs look in the plan only for a place below the lowest so
far. A window of which the misreadings are listed is laid, and so are most of its 60, 90 and 385 changes; both C programs make these in the order of
the list, and find each place as for place_of.

A bill is of 500 sections, with rails, of up to 4,294,967,295 marks, at any prices and charges. Document 004 has no bills: the column beside it stands
for the plain way, three times over the sections, for the rules of plans, the lengths and the sum. The best C goes over them once.

Why the library is slower than the best C, as far as parts of a call were measured by themselves (not in this run):

- Turns: two rotations of a random word, as are measured here, differ after a few letters. Of a word that repeats itself or is one letter but for a few, the library compares up to
  n^2 / 2 letters, 0.7 to 1.5 us on (2, 60), where `best.c`, in one pass with two candidates, takes 0.1 to 0.2 us.
- Ranks and places: the library fills a table of 61 times 61 numbers, as the rules ask, where `best.c` keeps two rows. Clearing the table is a twentieth of a rank on (2, 60) and
  a third to a half on (36, 11); the divisions that look for divisors, timed alone, come to a fifth to a quarter on (2, 60). The rest was not taken apart.
- Lookup: the 500 sections, of which the check reads each once and the search some ten by bisection, are a sixth of it on (2, 60), a third on (4, 30) and a half on (36, 11). The rest is the place.
- Words and marks fill the table again for each letter tried, where `best.c` divides past the middle of the word. How much of the time that is was not measured.
- Printing: by instructions, not by time, 2^20 marks on (2, 60) are one half steps from word to word, over a third the search for the first word, and a twentieth copying.

"""


def read_rows(path):
    rows = []
    for line in open(path):
        call, k, n, *ratios = line.split()
        strip = "all three" if k == "all" else "(%s, %s)" % (k, n)
        rows.append((call, strip, [None if ratio == "-" else float(ratio) for ratio in ratios]))
    return rows


def short(value):
    return "%.0f" % value if value >= 10 else "%.1f" % value if value >= 1 else "%.2g" % value


def compared(ratio):
    """How the library does beside another maker, whose time is this multiple of the library's."""
    if ratio is None:
        return ""
    times = short(max(ratio, 1 / ratio))
    return "as fast" if times == "1.0" else "%s times %s" % (times, "faster" if ratio > 1 else "slower")


def table(rows):
    lines = ["| Call | Strip | Beside document 004 as published | Beside the best C | Beside memcpy |", "|---|---|---|---|---|"]
    for call, strip, ratios in rows:
        lines.append("| `%s` | %s | %s |" % (call, strip, " | ".join(compared(ratio) for ratio in ratios)))
    return "\n".join(lines) + "\n"


def chart(rows):
    """Bars of time, the library's being 1, on a logarithmic scale."""
    left, width, bar, gap, top = 190, 520, 11, 12, 62
    times = [[ratios[0], 1.0] + ratios[1:] for _, _, ratios in rows]
    logs = [math.log10(time) for row in times for time in row if time]
    low, high = math.floor(min(logs)), math.ceil(max(logs))
    across = lambda time: left + width * (math.log10(time) - low) / (high - low)
    body, y = [], top
    for (call, strip, _), row in zip(rows, times):
        start = y
        for time, (_, colour) in zip(row, BARS):
            if time:
                body.append('<rect x="%d" y="%d" width="%.1f" height="%d" fill="%s"/>' % (left, y, max(1, across(time) - left), bar - 1, colour))
                body.append('<text x="%.1f" y="%d">%s</text>' % (max(left + 1, across(time)) + 4, y + bar - 2, short(time)))
                y += bar
        body.append('<text x="%d" y="%d" text-anchor="end">%s %s</text>' % (left - 8, (start + y) // 2 + 4, call, strip))
        y += gap
    for power in range(low, high + 1):
        x = across(10**power)
        body.insert(0, '<line x1="%.1f" y1="%d" x2="%.1f" y2="%d" stroke="#ddd"/>' % (x, top - 6, x, y))
        body.insert(0, '<text x="%.1f" y="%d" text-anchor="middle">%g</text>' % (x, top - 10, 10.0**power))
    for i, (name, colour) in enumerate(BARS):
        x = 12 + 175 * i
        body.append('<rect x="%d" y="26" width="10" height="10" fill="%s"/><text x="%d" y="35">%s</text>' % (x, colour, x + 14, name))
    head = '<svg xmlns="http://www.w3.org/2000/svg" width="%d" height="%d" font-family="sans-serif" font-size="11">' % (left + width + 60, y + 10)
    ground = '<rect width="100%" height="100%" fill="white"/>'
    title = '<text x="12" y="17" font-size="13">Time for a call, this library being 1 (shorter is faster)</text>'
    return "\n".join([head, ground, title] + body + ["</svg>"]) + "\n"


def main():
    rows = read_rows(sys.argv[1])
    print(table(rows), end="")
    with open("docs/BENCH.md", "w") as page:
        page.write(ABOUT + table(rows) + "\n![The same as bars](bench.svg)\n")
    with open("docs/bench.svg", "w") as page:
        page.write(chart(rows))


if __name__ == "__main__":
    main()
