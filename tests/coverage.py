#!/usr/bin/env python3
"""Lists every public function: whether it has a contract, how many must-fail edits bear on it, which test programs call it.

A contract is judged by its own text, between the head of the function and its body. Some clause names the result or, where there is none,
what a buffer holds at the exit; no clause says nothing; and each buffer that it is lent is named as it is at the exit.
The two functions that stand for the whole library have their record as contract.

An edit bears on a public function if it changes that function, or one of the same crate that it calls, or a constant that they read, or a
definition in specs/ of a crate whose one function has that definition as its contract. A function of the boundary (strip) is one line, the
number of what its family's function of the same name answers: the edits of that one count for it, and who calls the line calls that one.

Fails if a public function has no such contract or fewer than two edits, if what an edit replaces does not stand in its file just once, if a
call of the library is called by no test program, if one that is no call is used by no other crate, or if a function of the boundary is more
than its one line. tests/tricks.py feeds this with made-up crates that should be refused."""
import re
import sys
from pathlib import Path

ROOT = Path(__file__).resolve().parent.parent
HEAD = re.compile(r"^( *)(pub )?(?:pub\(crate\) |extern +)?fn (\w+)", re.M)
ANY_HEAD = re.compile(r"\bfn\s+\w+")
LEAST_EDITS = 2
BOUNDARY = "strip"
CALLS = {"words", "ranking", "marks", "pictures", "lookups", "misreadings", "bills", "cursors", BOUNDARY}  # what a reader may call, used by another crate or not
WHOLE = {"theory::proved": "Theorems", "demands::promised": "Demands"}  # their contracts are the theorems


# Text of a program, in Rattle or C

def code_of(text):
    """The text with comments and literals blanked, and every other letter at its place."""
    plain = re.compile(r'//[^\n]*|/\*.*?\*/|"(?:\\.|[^"\\])*"|\'(?:\\.|[^\'\\\n])\'', re.S)
    return plain.sub(lambda found: re.sub(r"\S", " ", found[0]), text)


def closing(code, opening):
    """Where the bracket that opens here is closed."""
    depth = 0
    for at in range(opening, len(code)):
        depth += (code[at] in "({[") - (code[at] in ")}]")
        if depth == 0:
            return at
    sys.exit("coverage: a bracket is not closed: %s" % code[opening:opening + 60])


def bodies(code):
    """What stands in braces: in C, the bodies of functions and no declaration."""
    found, at = [], code.find("{")
    while at >= 0:
        end = closing(code, at)
        found.append(code[at:end + 1])
        at = code.find("{", end)
    return "\n".join(found)


# Functions and their contracts

class Clause:
    """One `ensures` of a contract: the words of its fact, in which `result` is what is answered and `x.new` what the buffer x holds at the exit."""

    def __init__(self, text):
        fact = re.sub(r"--.*", "", text)
        self.words = re.findall(r"[^\s(){}⌜⌝,;]+", fact)
        self.sides = [side.split() for side in re.sub(r"[⌜⌝()]", " ", fact).split("≡")]

    def says_nothing(self):
        """Unit or ⊤, or that something is what it is."""
        return set(self.words) <= {"Unit", "⊤", "×"} or (len(self.sides) == 2 and self.sides[0] == self.sides[1])

    def names_result(self):
        return any(word.split(".")[0] == "result" for word in self.words)

    def names_exit(self, buffer=None):
        """Of this buffer, or of any."""
        return any(word.split(".")[1:2] == ["new"] and buffer in (None, word.split(".")[0]) for word in self.words)


class Function:
    """A function of a source text, from its head on: parameters, clauses, body."""

    def __init__(self, crate, text, code, head):
        self.crate, self.name, self.public, self.of_type = crate, head[3], bool(head[2]), bool(head[1])
        self.label = "%s::%s" % (crate, self.name)
        end = closing(code, code.index("(", head.end()))
        self.parameters = code[head.end():end]
        self.answers = code[end + 1:].lstrip().startswith("->")
        self.clauses = []
        while True:
            start = code.index("{", end)
            clause = re.search(r"\b(requires|ensures)\b[^{}]*$", code[end + 1:start])
            end = closing(code, start)
            if not clause:
                break
            if clause[1] == "ensures":
                self.clauses.append(Clause(code[start + 1:end]))
        self.body = code[start + 1:end]
        self.text = text[head.start():end + 1]

    def buffers(self):
        """The parameters that it may write through."""
        return re.findall(r"(\w+): &(?:'\w+ )?mut\b", self.parameters)


def functions_in(crate, text):
    """The functions of a source text; every `fn` in it is read, or the test ends here."""
    code = code_of(text)
    heads = list(HEAD.finditer(code))
    if len(heads) != len(ANY_HEAD.findall(code)):
        sys.exit("coverage: %s has a function that this test does not read" % crate)
    return [Function(crate, text, code, head) for head in heads]


def contract_lack(function):
    """What the contract of a public function lacks, or nothing."""
    clauses, record = function.clauses, WHOLE.get(function.label)
    if not clauses:
        return "a contract"
    if record:
        return "" if any(clause.words == [record] for clause in clauses) else "its record %s as contract" % record
    if any(clause.says_nothing() for clause in clauses):
        return "a contract of which every clause says something"
    if function.answers and not any(clause.names_result() for clause in clauses):
        return "a contract that names its result"
    if not function.answers and not any(clause.names_exit() for clause in clauses):
        return "a contract that names what it leaves"
    for buffer in function.buffers():
        if not any(clause.names_exit(buffer) for clause in clauses):
            return "a contract that names what it leaves in %s" % buffer
    return ""


# Crates and their edits

class Crate:
    """Functions, constants and edits of a crate, from its sources and the texts of its edits; and the crates that it uses."""

    def __init__(self, name, uses, sources, edits=()):
        self.uses = uses
        self.code = "\n".join(map(code_of, sources))
        self.functions = [function for text in sources for function in functions_in(name, text)]
        self.constants = {m[2]: m[0] for text in sources for m in re.finditer(r"^ *(pub )?const (\w+).*?;$", text, re.M | re.S)}
        self.edits = [list(replaced(text)) for text in edits]

    def count(self, function):
        """How many edits bear on a function."""
        near = reached(function, self.functions)
        return sum(any(self.bears(near, file, old) for file, old in edit) for edit in self.edits)

    def bears(self, near, file, old):
        if file.startswith("specs/"):
            return len(self.functions) == 1
        read = [name for name, text in self.constants.items() if old in text]
        return file.startswith("src/") and any(
            old in other.text or any(re.search(r"\b%s\b" % name, other.text) for name in read) for other in near)


def replaced(edit):
    """File and old text of each replacement of an edit."""
    file = ""
    for line in edit.split("\n"):
        if line.startswith("file: "):
            file = line[len("file: "):]
        elif line.startswith("old: "):
            yield file, line[len("old: "):]


def reached(function, functions):
    """The function and those of its crate that it calls, however deep."""
    found, left = [function], [function]
    while left:
        caller = left.pop()
        for other in functions:
            if other not in found and re.search(r"(?:(?<![\w:])|\b[A-Z]\w*::)%s(?:::<\w+>)?\(" % other.name, caller.body):
                found.append(other)
                left.append(other)
    return found


def forwards(function):
    """The family and the function that a line of the boundary calls, or None."""
    line = re.fullmatch(r"calls::number\((\w+)::(\w+)\(([\w, ]*)\)\)", function.body.strip())
    arguments = ", ".join(re.findall(r"(\w+): ", function.parameters))
    return (line[1], line[2]) if line and line[2] == function.name and line[3] == arguments else None


# The tree: crates by name, and the text of each test program

class Tree:
    def __init__(self, crates, programs):
        self.crates = crates
        self.programs = {name: code_of(text) for name, text in programs.items()}

    def public(self):
        return [function for crate in self.crates.values() for function in crate.functions if function.public]

    def behind(self, function):
        """The function itself and, for a line of the boundary, the one that it calls."""
        calls = forwards(function) if function.crate == BOUNDARY else None
        return [function] + [other for other in self.public() if (other.crate, other.name) == calls]

    def edits(self, function):
        return sum(self.crates[other.crate].count(other) for other in self.behind(function))

    def callers(self, function):
        return [program for program in self.programs if self.calls(program, function)]

    def calls(self, program, function):
        """C calls functions of the boundary, by name, unless it defines that name itself; Rattle names the crate, or calls a method of it."""
        code, name = self.programs[program], function.name
        if program.endswith(".c"):
            own = re.search(r"^\w[^;{}()]*\b%s\([^;{}]*\)\s*\{|^#\s*define\s+%s\b" % (name, name), code, re.M)
            return function.crate == BOUNDARY and not own and re.search(r"\b%s\(" % name, bodies(code)) is not None
        return function.crate in self.crates[program].uses and re.search(named(function), code) is not None

    def is_run(self, function):
        """Does a test program call it, or a line of the boundary that calls it?"""
        return any(self.callers(other) for other in self.public() if function in self.behind(other))

    def used_elsewhere(self, function):
        return any(function.crate in crate.uses and re.search(named(function), crate.code) for crate in self.crates.values())

    def lack(self, function):
        """What a public function lacks, or nothing."""
        lack = contract_lack(function)
        if lack:
            return lack
        if function.crate == BOUNDARY and not forwards(function):
            return "a body that is its family's call alone"
        if self.edits(function) < LEAST_EDITS:
            return "edits"
        if function.crate in CALLS:
            return "" if self.is_run(function) else "a test program that calls it"
        return "" if function.label in WHOLE or self.used_elsewhere(function) else "a use in another crate"

    def faults(self):
        return ["%s lacks %s" % (function.label, self.lack(function)) for function in self.public() if self.lack(function)]


def named(function):
    """How another crate calls a function: crate::function(..), or as a function or method of a type."""
    if function.of_type:
        return r"(?:\b[A-Z]\w*::|\.)%s\(" % function.name
    return r"\b%s::(?:\w+::)*%s(?:::<\w+>)?\(" % (function.crate, function.name)


# The tree of this repository

def read_crate(name, uses):
    folder = ROOT / "crates" / name
    strange = [path.name for path in folder.glob("must-fail/*") if path.suffix != ".edit"]
    if strange:
        sys.exit("coverage: not tried, since it is called no .edit: %s in %s" % (", ".join(strange), name))
    for path in sorted(folder.glob("must-fail/*.edit")):
        for file, old in replaced(path.read_text()):
            if (folder / file).read_text().count(old) != 1:
                sys.exit("coverage: what %s/%s replaces does not stand in %s just once: %s" % (name, path.stem, file, old))
    return Crate(name, uses, [path.read_text() for path in sorted(folder.glob("src/**/*.rt"))],
                 [path.read_text() for path in sorted(folder.glob("must-fail/*.edit"))])


def read_tree():
    """The crates of crates.txt, where `staticlib` may stand behind a name; of the programs, those that the gate proves and runs, and the C programs that tests/host builds."""
    lines = [line for line in (ROOT / "crates.txt").read_text().split("\n") if line and not line.startswith("#")]
    crates = {name: read_crate(name, set(uses.split())) for (name, *_), uses in ((head.split(), uses) for head, uses in (line.split(":", 1) for line in lines))}
    host = (ROOT / "tests" / "host").read_text()
    programs = {path.name: path.read_text() for path in sorted((ROOT / "tests").glob("*.c")) if re.search(r"\b%s\b" % path.stem, host)}
    for name in crates:
        main = ROOT / "crates" / name / "src" / "main.rt"
        if main.exists():
            programs[name] = main.read_text()
    return Tree(crates, programs)


def main():
    tree = read_tree()
    print("%-34s %-8s %5s  %s" % ("function", "contract", "edits", "called by"))
    for function in tree.public():
        contract = "no" if contract_lack(function) else "yes"
        print("%-34s %-8s %5d  %s" % (function.label, contract, tree.edits(function), " ".join(tree.callers(function))))
    judged, faults = len(tree.public()), tree.faults()
    print("%d public functions judged, %d of them lacking" % (judged, len(faults)))
    for fault in faults:
        print(fault)
    return 1 if faults or not judged else 0


if __name__ == "__main__":
    sys.exit(main())
