#!/usr/bin/env python3
"""Runs the built programs on the inputs made for them and compares every byte that they write with the model of the rules.

    programs.py             runs crates/NAME/out/NAME for each program of the table PROGRAMS
    programs.py --names     prints the names of the programs
"""
import shutil
import subprocess
import sys
from pathlib import Path

import replies
import stripprint
import stripwalk
import worksheet

CRATES = Path(__file__).resolve().parent.parent / "crates"

# Each program that reads, with its inputs: a label, the input, and what must be written for it.
PROGRAMS = {
    "stripwalk": stripwalk.inputs,
    "stripprint": stripprint.inputs,
    "replies": replies.inputs,
    "worksheet": worksheet.inputs,
}
SILENT = {"stripprint"}  # which write nothing for some inputs; any other writes something for each


# Running and comparing

LONGEST = 30  # seconds for an input; a program takes milliseconds
SHOWN = 5  # faults shown of a program


def run(program, given):
    """What a program wrote, and how it failed, if it did."""
    try:
        ended = subprocess.run([program], input=given, capture_output=True, timeout=LONGEST)
    except subprocess.TimeoutExpired as late:
        return late.stdout or b"", "did not end within %d s" % LONGEST
    if ended.returncode or ended.stderr:
        return ended.stdout, "ended with status %d and said %r" % (ended.returncode, ended.stderr[:200])
    return ended.stdout, ""


def cut(text):
    return text if len(text) <= 400 else text[:400] + ".."


def near(written, at):
    start = max(0, at - 60)
    return "%d bytes, from byte %d on: %r" % (len(written), start, written[start:at + 100])


def show(name, label, given, expected, came, failure):
    """The input, and both outputs around the first byte that differs."""
    shorter = min(len(expected), len(came))
    at = next((i for i in range(shorter) if expected[i] != came[i]), shorter)
    print("programs: %s is wrong on the input '%s', in line %d" % (name, label, expected.count(b"\n", 0, at) + 1))
    print("  input     %d bytes: %s" % (len(given), cut(given.hex())))
    print("  expected  %s" % near(expected, at))
    print("  came      %s" % near(came, at))
    if failure:
        print("  and it    %s" % failure)


def is_right(program, inputs):
    """Whether a program writes what it should for each of its inputs, and there are some, and for each, or for some, there is something to write."""
    if not program.is_file():
        print("programs: %s is not built" % program.name)
        return False
    tried = wrong = lines = silent = 0
    may_be_silent = program.name in SILENT
    for label, given, expected in inputs:
        came, failure = run(program, given)
        tried, lines, silent = tried + 1, lines + expected.count(b"\n"), silent + (not expected)
        if failure or came != expected or not (expected or may_be_silent):
            wrong += 1
            if wrong <= SHOWN:
                show(program.name, label, given, expected, came, failure)
    if tried == silent or may_be_silent != (silent > 0):
        print("programs: %s has %d inputs, of which %d get nothing" % (program.name, tried, silent))
        return False
    if wrong:
        print("programs: %s is wrong on %d of %d inputs" % (program.name, wrong, tried))
    else:
        nothing = " and nothing for %s" % format(silent, ",") if silent else ""
        print("programs: %s wrote what it should for %s inputs, %s lines in all%s" % (program.name, format(tried, ","), format(lines, ","), nothing))
    return wrong == 0


def netpbm_agrees():
    """Whether netpbm, which is made apart from us, reads each picture that stripprint writes and writes the same bytes again; if it is installed."""
    netpbm = shutil.which("pnmnoraw")
    if not netpbm:
        print("programs: no picture was read by netpbm, which is not installed")
        return True
    pictures = [(label, expected) for label, _, expected in stripprint.inputs() if expected]
    wrong = [label for label, file in pictures if run(netpbm, file) != (file, "")]
    print("programs: netpbm read %d pictures and wrote %s" % (len(pictures), "other bytes for %s" % wrong[:SHOWN] if wrong else "the same bytes again"))
    return not wrong


def main():
    if sys.argv[1:] == ["--names"]:
        print("\n".join(PROGRAMS))
        return 0
    if len(sys.argv) != 1:
        sys.exit(__doc__)
    reading = {path.parent.name for path in CRATES.glob("*/stdin")}
    if not reading or reading != set(PROGRAMS):
        sys.exit("programs: the table has %s, but those that have an input are %s" % (sorted(PROGRAMS), sorted(reading)))
    verdicts = [is_right(CRATES / name / "out" / name, inputs()) for name, inputs in PROGRAMS.items()]
    return 0 if all(verdicts) and netpbm_agrees() else 1


if __name__ == "__main__":
    sys.exit(main())
