"""Respells the names that specs/ and proofs/ declare: words in snake case, types in camel case.

Run once at the top of the repository, after the kit's port.py: python3 tools/respell.py
tools/respelled.tsv has a row for each name: its landed spelling, port.py's, today's. Where two names fell together, the lemma has `_lem`.
Names of src/, of files, of modules and exported C names are in no row.
"""
import glob
import os
import re

here = os.path.dirname(os.path.abspath(__file__))
rows = [line.rstrip("\n").split("\t") for line in open(os.path.join(here, "respelled.tsv"), encoding="utf-8")]
ported = {old: new for _, old, new in rows if old != new}
landed = {first: new for first, _, new in rows if first != new}
# a name that was in snake case already may be a function of src/ too: it is respelled in proofs and definitions alone, and not behind a point
plain = {old for old in ported if re.fullmatch(r"[a-z_0-9]+", old)}
word = re.compile(r"[^\s(){}\[\];,.λ\"`|]+")


def respelled(line, names, proof):
    def at(match):
        text = match.group(0)
        if text not in names:
            return text
        if text in plain:
            behind = line[match.start() - 1:match.start()] == "."
            if not proof or behind and text != "part_end":
                return text
        return names[text]

    return word.sub(at, line)


def quoted(line, names):
    return re.sub(r"`[^`]*`", lambda m: respelled(m.group(0), names, True), line)


def turn(path, line_of):
    with open(path, encoding="utf-8") as file:
        before = file.read()
    after = "\n".join(line_of(line) for line in before.split("\n"))
    if after != before:
        with open(path, "w", encoding="utf-8") as file:
            file.write(after)


def source(mark, names, proof):
    def line_of(line):
        code, comment = line, ""
        at = re.search(r"(^|\s)" + mark, line)
        if at:
            code, comment = line[:at.start()], line[at.start():]
        return respelled(code, names, proof) + quoted(comment, dict(landed, **ported))

    return line_of


for path in sorted(glob.glob("crates/*/*/**/*.antt", recursive=True)):
    if "/out/" not in path:
        turn(path, source("--", ported, True))
for path in sorted(glob.glob("crates/*/src/**/*.rt", recursive=True)):
    turn(path, source("//", ported, False))
for path in sorted(glob.glob("crates/*/must-fail/*.edit")):
    # port.py leaves the edits as they were
    turn(path, lambda line: respelled(line, dict(ported, **landed), False))
for path in sorted(glob.glob("*.md") + glob.glob("docs/**/*.md", recursive=True)):
    turn(path, lambda line: quoted(line, dict(ported, **landed)))
