#!/usr/bin/env python3
"""Feeds coverage.py with a small made-up tree, which it must accept, and with the same tree after each of some tricks, which it must refuse.

A trick is what a function, an edit or a test can look like without being what it should. Fails if one of them passes, or is refused for
another reason than its own."""
import sys

from coverage import Crate, Tree

USES = {"theory": "", "buffers": "", "words": "buffers", "cursors": "", "strip": "words", "rounds": "cursors"}

FILES = {
    "theory/src": """
pub fn proved()
    ensures { Theorems }
{}
""",
    "theory/edit 1": "file: specs/Words.antt\nold: one\nnew: two\n",
    "theory/edit 2": "file: specs/Words.antt\nold: three\nnew: four\n",
    "buffers/src": """
// Over the start of the buffer.
pub fn put(v: u64, out: &mut [u8])
    requires { 1 ≤ length out.old }
    ensures { out.new ≡ over v out.old }
{
    out[0] = v as u8;
    fill(out);
}

fn fill(out: &mut [u8]) {
    out[1] = 2;
}
""",
    "buffers/edit 1": "file: src/lib.rt\nold: out[0] = v as u8;\nnew: out[0] = 0;\n",
    "buffers/edit 2": "file: src/lib.rt\nold: out[1] = 2;\nnew: out[1] = 3;\n",
    "words/src": """
// The rank of a word.
pub fn rank_of(k: u64, word: &[u8], tray: &mut [u8]) -> u8
    ensures number { result ≡ fault k word.now }
    ensures left { tray.new ≡ put k tray.old }
{
    buffers::put(k + 1, tray);
    0
}
""",
    "words/edit 1": "file: src/lib.rt\nold: k + 1\nnew: k\n",
    "words/edit 2": "file: src/lib.rt\nold:     0\nnew:     1\n",
    "cursors/src": """
impl Cursor {
    // The step.
    pub fn step(self) -> Stepped
        ensures { StepSays self result }
    {
        let place = self.place + 1;
        moved(self, place)
    }
}
""",
    "cursors/edit 1": "file: src/lib.rt\nold: self.place + 1\nnew: self.place\n",
    "cursors/edit 2": "file: src/lib.rt\nold: moved(self, place)\nnew: lost(self)\n",
    "strip/src": """
#[unsafe(no_mangle)]
pub extern "C" fn rank_of(k: u64, word: &[u8], tray: &mut [u8]) -> u8
    ensures { RankSays k word.now tray.old tray.new result }
{
    calls::number(words::rank_of(k, word, tray))
}
""",
    "rounds/src": """
fn main() {
    let stepped = cursor.step();
}
""",
    "vectors.c": """
uint8_t rank_of(uint64_t k, const uint8_t *word, size_t word_len, uint8_t *tray, size_t tray_len);

int main(void) {
    return rank_of(2, word, 1, tray, 8);
}
""",
}

STEP = "        ensures { StepSays self result }\n"
NUMBER = "    ensures number { result ≡ fault k word.now }\n"
LEFT = "    ensures left { tray.new ≡ put k tray.old }\n"
PUT = "    ensures { out.new ≡ over v out.old }\n"
SAYS_NOTHING = "lacks a contract of which every clause says something"

# What is tried, the file, what is replaced by what, and the one fault that must be found.
TRICKS = (
    ("a method whose body says ensures", "cursors/src",
     STEP + "    {\n", "    {\n        let ensures = true;\n", "cursors::step lacks a contract"),
    ("a function whose body says ensures", "words/src",
     NUMBER + LEFT + "{\n", "{\n    // ensures { result ≡ 0 }\n", "words::rank_of lacks a contract"),
    ("a contract in a comment", "cursors/src", STEP, "        //" + STEP.lstrip(" "), "cursors::step lacks a contract"),
    ("a requires alone", "buffers/src", PUT, "", "buffers::put lacks a contract"),
    ("Unit", "cursors/src", "{ StepSays self result }", "{ Unit }", "cursors::step " + SAYS_NOTHING),
    ("Unit by its sign", "cursors/src", "{ StepSays self result }", "{ ⊤ }", "cursors::step " + SAYS_NOTHING),
    ("Unit as an assertion", "cursors/src", "ensures { StepSays self result }", "ensures* { ⌜ Unit ⌝ }", "cursors::step " + SAYS_NOTHING),
    ("Unit of the result", "cursors/src", "{ StepSays self result }", "{ (Unit) × Unit }", "cursors::step " + SAYS_NOTHING),
    ("Unit in one clause of several", "words/src",
     LEFT, LEFT + "    ensures more { Unit }\n", "words::rank_of " + SAYS_NOTHING),
    ("a result that is itself", "cursors/src", "{ StepSays self result }", "{ result ≡ result }", "cursors::step " + SAYS_NOTHING),
    ("a result that is itself, as an assertion", "cursors/src",
     "ensures { StepSays self result }", "ensures* { ⌜ result ≡ result ⌝ }", "cursors::step " + SAYS_NOTHING),
    ("a fact of the arguments alone", "cursors/src",
     "{ StepSays self result }", "{ GoodOn self }", "cursors::step lacks a contract that names its result"),
    ("a fact of the arguments alone, where nothing is answered", "buffers/src",
     PUT, "    ensures { 1 ≤ length out.old }\n", "buffers::put lacks a contract that names what it leaves"),
    ("a result that is only part of a word", "cursors/src",
     "{ StepSays self result }", "{ StepSays self result-1 }", "cursors::step lacks a contract that names its result"),
    ("a result in a comment of the contract", "cursors/src",
     "{ StepSays self result }", "{ GoodOn self -- result\n        }", "cursors::step lacks a contract that names its result"),
    ("a tray without the number", "words/src", NUMBER, "", "words::rank_of lacks a contract that names its result"),
    ("a number without the tray", "words/src", LEFT, "", "words::rank_of lacks a contract that names what it leaves in tray"),
    ("the whole library as Unit", "theory/src", "{ Theorems }", "{ Unit }", "theory::proved lacks its record Theorems as contract"),
    ("the whole library as another record", "theory/src",
     "{ Theorems }", "{ Words }", "theory::proved lacks its record Theorems as contract"),
    ("a C function of the same name", "vectors.c",
     "uint8_t *tray, size_t tray_len);", "uint8_t *tray, size_t tray_len)\n{\n    return 0;\n}", "strip::rank_of lacks a test program that calls it"),
    ("a C macro of the same name", "vectors.c",
     "int main(void)", "#define rank_of(k, word, word_len, tray, tray_len) 0\nint main(void)", "strip::rank_of lacks a test program that calls it"),
    ("a C program that names the call in a comment", "vectors.c",
     "return rank_of(2, word, 1, tray, 8);", "return 0; /* rank_of(2, word, 1, tray, 8) */", "strip::rank_of lacks a test program that calls it"),
    ("a C program that names the call in a text", "vectors.c",
     "return rank_of(2, word, 1, tray, 8);", 'return puts("rank_of(2)");', "strip::rank_of lacks a test program that calls it"),
    ("a program that names the call in a comment", "rounds/src",
     "let stepped = cursor.step();", "// let stepped = cursor.step();", "cursors::step lacks a test program that calls it"),
    ("a program that calls a function of its own", "rounds/src",
     "cursor.step()", "step()", "cursors::step lacks a test program that calls it"),
    ("a program that calls a method of a longer name", "rounds/src",
     "cursor.step()", "cursor.step_back()", "cursors::step lacks a test program that calls it"),
    ("a use in a comment", "words/src",
     "    buffers::put(k + 1, tray);", "    // buffers::put(k + 1, tray);", "buffers::put lacks a use in another crate"),
    ("an edit of a proof", "theory/edit 1", "specs/Words.antt", "proofs/Words.antt", "theory::proved lacks edits"),
    ("an edit of a function that is not called", "buffers/src", "    fill(out);\n", "    other::fill(out);\n", "buffers::put lacks edits"),
    ("one edit", "cursors/edit 2", "old: moved(self, place)", "old: fn moved", "cursors::step lacks edits"),
    ("a boundary that does more", "strip/src",
     "    calls::number(words::rank_of(k, word, tray))", "    calls::number(words::rank_of(k + 1, word, tray))", "strip::rank_of lacks a body that is its family's call alone"),
    ("a head that is not read", "words/src", "pub fn rank_of", "pub const fn rank_of", "coverage: words has a function that this test does not read"),
)


def faults_of(files):
    """The faults that coverage.py finds in a tree, or why it stopped."""
    try:
        crates = {}
        for name, uses in USES.items():
            edits = [text for file, text in files.items() if file.startswith(name + "/edit")]
            crates[name] = Crate(name, set(uses.split()), [files[name + "/src"]], edits)
        return Tree(crates, {"vectors.c": files["vectors.c"], "rounds": files["rounds/src"]}).faults()
    except SystemExit as stopped:
        return [str(stopped)]


def main():
    wrong = ["the tree without a trick: " + fault for fault in faults_of(FILES)]
    for what, file, old, new, fault in TRICKS:
        if FILES[file].count(old) != 1:
            wrong.append("%s: what it replaces does not stand once in %s" % (what, file))
            continue
        found = faults_of({**FILES, file: FILES[file].replace(old, new)})
        if fault not in found:
            wrong.append("%s: must be refused as '%s', and found is %s" % (what, fault, found))
    if wrong:
        sys.exit("\n".join("tricks: " + line for line in wrong))
    print("tricks: coverage.py accepts the made-up tree and refuses it after each of %d tricks" % len(TRICKS))


if __name__ == "__main__":
    main()
