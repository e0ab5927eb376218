#!/usr/bin/env python3
"""Spells the names of definitions and lemmas as the rest of the library does: words in snake case, types in camel case, a dash only between two names.

usage: python3 tools/respell.py            at the top of the repository: rewrites the .antt files and the ghost text of the .rt files of crates/
       python3 tools/respell.py --list     prints each old name and its new one, and changes nothing

A name that is declared in specs/ or in a file right in proofs/ is spelled anew everywhere. Names of src/ stay, and so do those that a proof of a
function takes from what the check makes. Where two names would fall together, the lemma gets `_lem` at its end.
It is for a tree in the older spelling, right after the kit's port.py, and runs once: docs/PORT.md says what it made.
"""

import collections
import os
import re
import sys

PART = r"[^\s(){}\[\];,.`\"]+"
TOKEN = re.compile(r"(\.?)(" + PART + r")")
DECLARED = re.compile(r"^(\s*)((?:pub |abbrev |unfoldable |data |record )*)(" + PART + r")(?: :(?= )| :$| (?=\(.*: Type 0 where$)| : .* where$)")


# Names that fell together in an earlier respelling, with the files in which each is the lemma and not the definition of that name.
MERGED = {
    "end_of": ["theory/proofs/Windows.antt"],
    "first_of": ["rings/proofs/Ways.antt", "rings/proofs/next_word/Proof.antt", "theory/proofs/Lists.antt", "theory/proofs/Windows.antt"],
    "first_word": ["theory/proofs/Locating.antt"],
    "last_of": ["rings/proofs/Ways.antt", "rings/proofs/previous_word/Proof.antt", "theory/proofs/Joined.antt"],
    "place_in": ["theory/proofs/Places.antt"],
    "step_of": ["theory/proofs/Next.antt", "theory/proofs/Steps.antt"],
    "last_word": ["theory/proofs/Shorts.antt"],
}

# Definitions whose name another one takes.
CHOSEN = {"strip-of": "strip_setting"}


def texts(top, ends):
    for folder, dirs, files in os.walk(os.path.join(top, "crates")):
        dirs[:] = sorted(d for d in dirs if d != "out")
        for name in sorted(files):
            if name.endswith(ends):
                yield os.path.join(folder, name)


def of_function(path):
    """Whether a file is a function's proof, in a folder of its own below proofs/."""
    return os.path.basename(os.path.dirname(path)) not in ("specs", "proofs")


def declared(top):
    """Each declared name with the kinds of its declarations: 'type', 'field', 'lemma', 'word'."""
    names = collections.defaultdict(set)
    for path in texts(top, ".antt"):
        if of_function(path):
            continue
        inside = None
        for line in open(path, encoding="utf-8"):
            line = line.rstrip("\n")
            for name in re.findall(r"\blet (" + PART + r") [:=]", line):
                names[name].add("lemma")
            found = re.match(r"^(?:\s*)(?:pub )?(data|record) (" + PART + ")", line)
            if found:
                names[found.group(2)].add("type")
                inside = found.group(1)
                continue
            if line and not line[0].isspace():
                inside = None
            found = re.match(r"^(\s*)((?:pub |abbrev |unfoldable )*)(" + PART + r") :(?: (.*))?$", line)
            if not found or found.group(3).startswith(("--", "λ")):
                continue
            name, marks, says = found.group(3), found.group(2), found.group(4) or ""
            if inside and found.group(1):
                names[name].add("field")
            elif "abbrev" in marks or "unfoldable" in marks:
                names[name].add("type" if re.search(r"Type 0$", says) else "word")
            else:
                names[name].add("lemma")
    return names


def taken(top):
    """What files take from a library."""
    names = set()
    for path in texts(top, (".antt", ".rt")):
        for where, what in re.findall(r"use ([\w.]+)\.\{([^}]*)\}", open(path, encoding="utf-8").read()):
            if not where.startswith("Rattle.") or where.startswith("Rattle.std."):
                names |= {w.strip() for w in what.split(",")}
    return names


def snake(word):
    word = re.sub(r"([a-z0-9])([A-Z])(?![A-Z])", lambda m: m.group(1) + "_" + m.group(2).lower(), word)
    return re.sub(r"([a-z0-9])([A-Z])$", lambda m: m.group(1) + "_" + m.group(2).lower(), word)


def respelled(name, names, words):
    """The new spelling of a name; words are the names of definitions, between which a dash stays."""
    kinds = names[name]
    parts = name.split("-")
    if kinds == {"type"}:
        return "".join(p[:1].upper() + p[1:] for p in parts)
    parts = [p if p in ("getD",) else snake(p) for p in parts]
    # the dash stays between two names of definitions
    for at in range(1, len(parts)):
        left, right = "_".join(parts[:at]), "_".join(parts[at:])
        if left in words and right in words and "lemma" in kinds:
            return left + "-" + right
    return "_".join(parts)


def table(top):
    names = declared(top)
    libs = taken(top)
    own = {n for n in names if re.search(r"-|^[a-z].*[a-z0-9][A-Z]", n) and n not in libs and re.match(r"[^\W\d]", n)}
    words = {snake(n) for n in names if "word" in names[n]} | {"length", "take", "drop", "append", "set", "replicate", "reverse"}
    words -= {"in", "is", "at", "of", "on"}
    new = {n: CHOSEN.get(n) or respelled(n, names, words) for n in own}
    groups = collections.defaultdict(list)
    for n, m in new.items():
        groups[m].append(n)
    for m, olds in groups.items():
        if m in libs:
            print(f"together: {', '.join(olds)} and a library's {m}", file=sys.stderr)
        olds += [m] if m in names and m not in olds else []
        if len(olds) == 1:
            continue
        # the definition keeps the name
        olds.sort(key=lambda n: (not names[n] & {"word", "type"}, "-" in n, n == m, n))
        for at, n in enumerate(olds[1:]):
            new[n] = m + "_lem" + ("" if at == 0 else str(at + 1))
            print(f"together: {n} {sorted(names[n])} is {new[n]}, since {olds[0]} {sorted(names[olds[0]])} is {m}", file=sys.stderr)
    falls = set(new.values()) & (set(names) - set(new)) - {new.get(n) for n in names}
    if len(set(new.values())) != len(new) or falls:
        raise SystemExit(f"names fall together: {falls}")
    for n in [n for n, m in new.items() if n == m]:
        del new[n]
    return new, names


def turn(line, new, fields, made, own):
    """One line with the names in it spelled anew; made: in a function's proof, where a name behind a dot is the check's but for a record's field."""

    def one(m):
        dot, word = m.groups()
        if word not in new or word in own:
            return m.group(0)
        if made and dot and (word not in fields or m.string[: m.start()].endswith("tie")):
            return m.group(0)
        return dot + new[word]

    return TOKEN.sub(one, line)


def main(argv):
    top = os.getcwd()
    new, names = table(top)
    if "--list" in argv:
        for n in sorted(new):
            print(n, new[n], sep="\t")
        return 0
    fields = {n for n in new if "field" in names[n]}
    for path in texts(top, ".antt"):
        text = open(path, encoding="utf-8").read()
        made = of_function(path)
        own = set(re.findall(r"(?m)^(?:pub )?(\S+) : ", text)) if made else set()
        here = dict(new)
        for name, paths in MERGED.items():
            if os.path.relpath(path, os.path.join(top, "crates")) in paths:
                here[name] = name + "_lem"
        text_new = "".join(turn(l, here, fields, made, own) for l in text.splitlines(keepends=True))
        if made:
            # the proof of a function f is f_spec
            text_new = re.sub(r"(?m)^((?:pub )?)([\w-]+)-spec( :| =|$)", lambda m: m.group(1) + m.group(2).replace("-", "_") + "_spec" + m.group(3), text_new)
        if text_new != text:
            open(path, "w", encoding="utf-8").write(text_new)
    for path in texts(top, ".rt"):
        text = open(path, encoding="utf-8").read()
        ghost, out = False, []
        for line in text.splitlines(keepends=True):
            if re.match(r"\s*(ghost use|requires|ensures|ghost)\b", line):
                ghost = True
            out.append(turn(line, new, fields, False, set()) if ghost else line)
            if ghost and (line.rstrip().endswith("}") or line.rstrip().endswith(";")):
                ghost = False
        text_new = "".join(out)
        if text_new != text:
            open(path, "w", encoding="utf-8").write(text_new)
    return 0


if __name__ == "__main__":
    raise SystemExit(main(sys.argv[1:]))
