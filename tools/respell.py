#!/usr/bin/env python3
"""Spells the repository's own definitions and lemmas as today's Rattle does: words in snake case, by the table beside this file.

usage: respell.py FOLDER     FOLDER has crates/, README.md and docs/; run it once, right after the kit's port.py

A row of respelled.tsv is an old name, a tab and the new one. A word's capitals become underscores; a dash stays between two names of
definitions or functions and becomes an underscore beside a plain word; a lemma that would have its definition's name gets `_lem`.
Functions of src/, strings, exported names, inputs and outputs keep theirs. Whole names turn, never a part of one.
"""

import os
import re
import sys

HERE = os.path.dirname(os.path.realpath(__file__))
NAME = re.compile(r"[^\s(){}.;,@\"«»\[\]`:?!]+")
COMMENT = {".antt": re.compile(r"(?<![^\s(){};,])--[^\n]*"), ".rt": re.compile(r"//[^\n]*"), ".edit": re.compile(r"(?m)^#[^\n]*")}
STRING = re.compile(r'b?"(?:\\.|[^"\\])*"')
SPAN = re.compile(r"`[^`\n]+`")
# A lemma that the kit's script gave the name of the definition that it speaks of.
BESIDE = {
    "crates/determined/proofs/Determined.antt": {"bit_at": "bit_at_lem", "byte_at": "byte_at_lem"},
    "crates/determined/proofs/DeterminedMachines.antt": {"key_in": "key_in_lem", "tag_of": "tag_of_lem"},
    "crates/determined/proofs/DeterminedRules.antt": {"row_of": "row_of_lem"},
    "crates/promises/proofs/AuditedNumbers.antt": {"first_of": "first_of_lem"},
    "crates/promises/proofs/Refuted.antt": {"one_answer": "one_answer_lem", "writes_nothing": "writes_nothing_lem"},
    "crates/promises/proofs/Talking.antt": {"open_by": "open_by_lem"},
}


def rows():
    with open(os.path.join(HERE, "respelled.tsv"), encoding="utf-8") as f:
        return dict(line.rstrip("\n").split("\t") for line in f if line.strip())


class Speller:
    def __init__(self, table):
        self.table = table
        # In running text a name with a dash may be two words.
        self.words = {a: b for a, b in table.items() if "-" not in a}

    def code(self, text, beside, keep_after_dot):
        def turned(m):
            w = m.group()
            behind_dot = m.start() and text[m.start() - 1] == "."
            if w in beside and not behind_dot:
                return beside[w]
            if keep_after_dot and "-" in w and behind_dot:
                return w
            return self.table.get(w, w)

        return NAME.sub(turned, text)

    def prose(self, text):
        text = NAME.sub(lambda m: self.words.get(m.group(), m.group()), text)
        return SPAN.sub(lambda m: NAME.sub(lambda n: self.table.get(n.group(), n.group()), m.group()), text)

    def source(self, text, kind, beside, keep_after_dot):
        quiet = COMMENT[kind]
        both = re.compile(f"{quiet.pattern}|{STRING.pattern}", re.M) if kind == ".rt" else quiet
        out, at = [], 0
        for m in both.finditer(text):
            out.append(self.code(text[at : m.start()], beside, keep_after_dot))
            out.append(m.group() if m.group()[0] in 'b"' else self.prose(m.group()))
            at = m.end()
        out.append(self.code(text[at:], beside, keep_after_dot))
        return "".join(out)


def main(root):
    table = rows()
    speller = Speller(table)
    for folder in ("crates", "docs"):
        for place, dirs, files in os.walk(os.path.join(root, folder)):
            made = os.path.dirname(place) == os.path.join(root, "crates")
            dirs[:] = sorted(d for d in dirs if not (made and d == "out"))
            for name in sorted(files):
                turn(speller, root, os.path.join(place, name))
    turn(speller, root, os.path.join(root, "README.md"))


def turn(speller, root, path):
    kind = os.path.splitext(path)[1]
    if kind not in (".antt", ".rt", ".edit", ".md"):
        return
    with open(path, encoding="utf-8") as f:
        old = f.read()
    if kind == ".md":
        new = speller.prose(old)
    else:
        beside = BESIDE.get(os.path.relpath(path, root), {})
        # Behind a dot a function's own proof has names that Rattle makes.
        new = speller.source(old, kind, beside, os.path.basename(path) == "Proof.antt")
    if new != old:
        with open(path, "w", encoding="utf-8") as f:
            f.write(new)


if __name__ == "__main__":
    if len(sys.argv) != 2:
        raise SystemExit(__doc__)
    main(sys.argv[1])
