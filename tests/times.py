#!/usr/bin/env python3
"""Prints, from the output of the gate, a table of its time: for each crate its functions, seconds of proof, must-fail edits, seconds an edit.

    bash .ci/run 2>&1 | tee log; python3 tests/times.py < log

Seconds are those that `rt` printed with the older kit: of one job, with the others beside it. Today's prints none, so there is no table of it.
"""
import re
import sys


def read(lines):
    """Functions and seconds of proof of each crate, and the seconds of each of its edits."""
    proofs, edits, functions = {}, {}, 0
    for line in lines:
        if found := re.match(r"logic=proved functions=(\d+)", line):
            functions = int(found[1])
        elif found := re.match(r"rt: (\w+) proved \((\d+) s\)", line):
            proofs[found[1]] = functions, int(found[2])
        elif found := re.match(r"rt: must-fail (\w+)/\w+: refused.* (\d+) s\)", line):
            edits.setdefault(found[1], []).append(int(found[2]))
    return proofs, edits


def main():
    proofs, edits = read(sys.stdin)
    if not proofs:
        sys.exit("times: no crate was proved")
    print("| Crate | Functions | Proof, s | Edits | s an edit |\n|---|---|---|---|---|")
    for crate, (functions, seconds) in proofs.items():
        tried = edits.get(crate, [])
        print("| %s | %d | %d | %d | %s |" % (crate, functions, seconds, len(tried), round(sum(tried) / len(tried)) if tried else ""))
    every = [seconds for tried in edits.values() for seconds in tried]
    print("| all | %d | %d | %d | %d in all |" % (sum(f for f, _ in proofs.values()), sum(s for _, s in proofs.values()), len(every), sum(every)))


if __name__ == "__main__":
    main()
