#!/usr/bin/env python3
"""Brings the repository's own names to the library's spelling: a definition or a lemma in snake case, where it was in camel case.

usage: python3 tools/respell.py        at the top of the repository, once, right after the kit's port.py

It turns .antt and .rt files of crates/, the edits of crates/*/must-fail and edits/, and the names that pages quote. Types, facts, modules and
constructors keep their capitals; functions of src/ and what C calls had no capitals. A lemma that would get its definition's name gets `_lem`.
The edits, which port.py leaves, get the forms of clauses and projections too; an edit whose text then stands nowhere is mended by hand.
"""
import glob
import re

CAMEL = re.compile(r"(?<![A-Za-z0-9_'])[a-z][a-z0-9]*(?:[A-Z][A-Za-z0-9]*)+(?![A-Za-z0-9_])")


# Lemmas and locals that had a dash, and would now have the name of a definition.
LEMMAS = ["finished_as", "read_told", "step_in", "told_in", "told_of", "read_as", "go_on", "all_read", "read_whole", "read_number", "goes_on",
          "going_on", "by_value"]
ROWS = ["crates/bins/proofs/Searches.antt", "crates/bins/proofs/Topmost.antt"]


def snake(name):
    return re.sub(r"(?<=[a-z0-9])[A-Z]|(?<=[A-Z])[A-Z](?=[a-z])", lambda m: "_" + m.group(0), name).lower()


STRING = re.compile(r'("(?:[^"\\\n]|\\.)*")')


def camel(text):
    """Outside strings."""
    parts = STRING.split(text)
    return "".join(part if i % 2 else CAMEL.sub(lambda m: snake(m.group(0)), part) for i, part in enumerate(parts))


def lemmas(path, text):
    for name in LEMMAS:
        text = re.sub(rf"(?<![A-Za-z0-9_'-]){name}(?![A-Za-z0-9_'-])", name + "_lem", text)
    if path in ROWS:
        text = re.sub(r"(?<![A-Za-z0-9_'.-])row_has(?![A-Za-z0-9_'-])", "row_has_lem", text)
    return text


def clauses(text):
    """The forms that an edit quotes: clauses, projections and renamed words of the library."""
    text = re.sub(r"\bnow \((\w+) \.exit\)", r"\1.new", text)
    text = re.sub(r"\bnow \((\w+) \.entry\)", r"\1.old", text)
    text = re.sub(r"\{ λ (\w+)\. ⌜ (.*) ⌝ \}", lambda m: "{ " + (m.group(2) if m.group(1) == "_" else re.sub(rf"(?<![\w'.]){m.group(1)}(?![\w'])", "result", m.group(2))) + " }", text)
    text = re.sub(r"\{ ⌜ (.*) ⌝ \}", r"{ \1 }", text)
    while True:
        turned = re.sub(r"(?<=[\w)]) (\.[a-z0-9]\w*)(?=[ ),;.]|$)", r"\1", text, flags=re.M)
        turned = re.sub(r"(?<![\w'.-])\((\w+(?:\.\w+)+)\)(?=[ ),;.]|$)", r"\1", turned, flags=re.M)
        if turned == text:
            break
        text = turned
    text = re.sub(r"\bnow (\w+)", r"\1.now", text)
    text = re.sub(r"(?<![\w'-])getD(?![\w'-])", "get_or", text)
    text = re.sub(r"«(\w+)»", r"\1", text)
    return text


def rewrite(path, turn):
    with open(path, encoding="utf-8") as f:
        text = f.read()
    turned = turn(text)
    if turned != text:
        with open(path, "w", encoding="utf-8") as f:
            f.write(turned)
        return 1
    return 0


def edit(text):
    out = []
    for line in text.split("\n"):
        out.append(camel(clauses(line)) if line.startswith(("old: ", "new: ")) else camel(line))
    return "\n".join(out)


def main():
    count = 0
    for path in sorted(glob.glob("crates/*/*/**/*.antt", recursive=True)):
        count += rewrite(path, lambda t: camel(re.sub(r"(?<![\w'])getD-", "get_or-", lemmas(path, t) if "/proofs/" in path else t)))
    for path in sorted(glob.glob("crates/*/src/**/*.rt", recursive=True)):
        count += rewrite(path, camel)
    for path in sorted(glob.glob("crates/*/must-fail/*.edit") + glob.glob("edits/*/*.edit")):
        count += rewrite(path, edit)
    for path in sorted(glob.glob("*.md") + glob.glob("docs/*.md") + glob.glob("*/README.md")):
        count += rewrite(path, lambda t: re.sub(r"`[^`\n]*`", lambda m: camel(m.group(0)), t))
    print(f"respell: {count} files")


if __name__ == "__main__":
    main()
