#!/usr/bin/env python3
"""Counts, in the crates' src/, places that today's Rattle has a better form for: `tools/designs.py [COMMIT]`, with `--list` each place.

1 enums of the shape of Option or Result, a number with a value beside it, numbers for refusals; 2 functions whose texts differ only in names and
numbers; 3 loops that count an index; 4 conversions, comparisons and copies by hand; 5 facts that stand in the `requires` of three or more functions;
6 a buffer with a length beside it; 7 flags that say which step to run. docs/DESIGN-PASS.md says what each place became.
"""
import re
import subprocess
import sys
from collections import defaultdict
from pathlib import Path

ROOT = Path(__file__).resolve().parent.parent


def sources(commit):
    """The lines of each file of src/, as they stand or as they stood at a commit."""
    if commit is None:
        return {str(p.relative_to(ROOT)): p.read_text() for p in sorted(ROOT.glob("crates/*/src/*.rt"))}
    git = ["git", "-C", str(ROOT)]
    names = subprocess.run(git + ["ls-tree", "-r", "--name-only", commit], capture_output=True, text=True, check=True).stdout
    found = [name for name in names.splitlines() if re.fullmatch(r"crates/[^/]+/src/.*\.rt", name)]
    return {name: subprocess.run(git + ["show", commit + ":" + name], capture_output=True, text=True, check=True).stdout for name in found}


def functions(text):
    """Line, head and body of each function."""
    for found in re.finditer(r"^( *)(?:pub(?:\(crate\))? )?(?:extern \"C\" )?fn (\w+)", text, re.M):
        end = text.find("\n" + found[1] + "{\n", found.start())
        short = text.find(" {\n", found.start())
        start = short if end < 0 or 0 <= short < end and "\n" not in text[found.start():short] else end
        stop = text.find("\n" + found[1] + "}", start)
        if start > 0 and stop > 0:
            yield text.count("\n", 0, found.start()) + 1, found[2], text[found.start():start], text[start:stop]


def shape(body):
    """A body with its names and numbers taken out."""
    words = re.findall(r"[A-Za-z_]\w*|\d+|[^\s\w]", body)
    kept = {"if", "else", "for", "while", "loop", "match", "let", "mut", "return", "in", "as", "break"}
    return " ".join(word if word in kept else "n" if re.match(r"\d", word) else "x" if re.match(r"\w", word) else word for word in words)


def matches(files, pattern):
    return ["%s:%d: %s" % (name, number, line.strip()) for name, text in files.items() for number, line in enumerate(text.splitlines(), 1) if re.search(pattern, line)]


def twins(files):
    groups = defaultdict(list)
    for name, text in files.items():
        for line, called, _, body in functions(text):
            form = shape(body)
            if len(form.split()) > 40:
                groups[form].append("%s:%d: fn %s" % (name, line, called))
    return [", ".join(group) for group in groups.values() if len(group) > 1]


def facts(files):
    groups = defaultdict(list)
    for name, text in files.items():
        for line, called, head, _ in functions(text):
            clause = re.search(r"requires \{(.*)\}", head)
            for fact in re.split(r" × ", clause[1]) if clause else []:
                bare = re.sub(r"\.(old|now)\b", "", fact).strip(" ()")
                groups[bare].append("%s:%d: fn %s" % (name, line, called))
    return ["%s: %s" % (fact, ", ".join(group)) for fact, group in sorted(groups.items()) if len(group) > 2]


POINTS = {
    "1": lambda files: matches(files, r"^ *(Large|Refused|Nowhere)\b.*,$") + matches(files, r"^    pub number: u8,|^    pub laying: u64,")
    + matches(files, r"^pub const [A-Z_]+: u8 = \d+;") + matches(files, r"\) -> (u8|Value|Started|Stepped)$"),
    "2": twins,
    "3": lambda files: matches(files, r"^ *('\w+: )?(while .*|loop) \{$"),
    "4": lambda files: matches(files, r"fn (wide|is_same|with_byte|get32|half|size|number)\(|/ 256|\* 256|% 256"),
    "5": facts,
    "6": lambda files: matches(files, r"fn .*\b(at|long|filled): usize.*-> (usize|Moved|Spot)|fn .*out: &mut \[u8\], at: usize|fn .*: &mut \[u8\], long: usize"),
    "7": lambda files: matches(files, r"\b(short|back|way): bool"),
}


def main():
    commit = next((word for word in sys.argv[1:] if not word.startswith("--")), None)
    files = sources(commit)
    for point, places in POINTS.items():
        found = places(files)
        print("point %s: %d" % (point, len(found)))
        if "--list" in sys.argv:
            print("".join("    %s\n" % place for place in found), end="")


if __name__ == "__main__":
    main()
