#!/usr/bin/env python3
"""Fails if a function calls itself but the two that may, or if one of these no longer does.

The proof of such a function stands in a folder +NAME, a method's in the folder of its type, one of a module's in that of the module: so the
folders are looked for at every depth. Before that the same is tried on made-up folders, each of which must be found. A function over a type that
contains itself would have no folder: there is no such type here."""
import sys
import tempfile
from pathlib import Path

CRATES = Path(__file__).resolve().parent.parent / "crates"

# The power calls itself for half the exponent, a number's text for a digit. None may once for each entry of a record.
ALLOWED = ["shape/proofs/+pow", "texts/proofs/+put_decimal"]

# A function of the root, a method of a type of the root, a method and a function of a module.
MADE_UP = ["plans/proofs/+straight", "sections/proofs/Plan/+count", "plans/proofs/accepted/AcceptedPlan/+begun", "plans/proofs/accepted/+welded"]


def selves_of(crates):
    """The folders of those that call themselves, from the crate on."""
    return sorted(str(folder.relative_to(crates)) for folder in crates.glob("*/proofs/**/+*"))


def is_found(folder):
    with tempfile.TemporaryDirectory() as made:
        (Path(made) / folder).mkdir(parents=True)
        return selves_of(Path(made)) == [folder]


def main():
    missed = [folder for folder in MADE_UP if not is_found(folder)]
    if missed:
        sys.exit("selves: not found: " + " ".join(missed))
    selves = selves_of(CRATES)
    if selves != ALLOWED:
        sys.exit("functions that call themselves: " + " ".join(selves))
    print("selves: %d functions call themselves, as they may, and none else; a third is found at each of %d depths" % (len(selves), len(MADE_UP)))


if __name__ == "__main__":
    main()
