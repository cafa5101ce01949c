#!/usr/bin/env python3
"""Writes docs/WRONG_BODIES.md: the wrong bodies that the prover has to refuse, by crate and by the file that each turns.

    python3 checks/wrong_bodies.py

They are the files crates/NAME/must-fail/*.edit, whose names say what they do wrong. The text of each stands once in its file, or this says
so and ends with status 1: such an edit is none. So it does where an edit does not stand once in the tables of docs/PROVED.md, which tell
the clause that refuses it.
"""

import collections
import pathlib
import re
import sys

TOP = pathlib.Path(__file__).resolve().parent.parent
HEAD = """# Wrong bodies

What `.ci/run` shows to be refused: each is a change of a few words in a file of a crate (`crates/NAME/must-fail/NAME.edit`), after which the crate
is not proved. Changes in `src/` are wrong bodies, but for those that turn a statement: all in a `src/laws.rt`, and `picture of colours turned`,
`plan without its display` and `any arrival is the schedule`. These, and those in `specs/` and `proofs/`, which turn a definition or a premise,
show that a law or clause notices. This page is made by `python3 checks/wrong_bodies.py`.
"""

# How the tables of docs/PROVED.md begin that have an edit in the last cell of a row.
HEADS_OF_TABLES = ("| wrong body |", "| turned |")


def crate_names():
    lines = (TOP / "crates.txt").read_text().splitlines()
    return [line.split(":")[0].strip() for line in lines if line.split("#")[0].strip()]


def turned(edit):
    """The file that an edit turns, and its texts."""
    lines = edit.read_text().splitlines()
    file = next(line[len("file: ") :] for line in lines if line.startswith("file: "))
    return file, [line[len("old: ") :] for line in lines if line.startswith("old: ")]


def rows(crate, faults):
    by_file = {}
    for edit in sorted((TOP / "crates" / crate / "must-fail").glob("*.edit")):
        file, texts = turned(edit)
        source = (TOP / "crates" / crate / file).read_text()
        faults += [f"{edit.relative_to(TOP)}: a text stands {source.count(text)} times" for text in texts if source.count(text) != 1]
        by_file.setdefault(file, []).append(edit.stem.replace("_", " "))
    for file, names in by_file.items():
        yield f"- `{file}`: {'; '.join(names)}."


def told(crates):
    """The edits in the last cells of the tables of docs/PROVED.md: crates, each with the names behind it."""
    found = []
    is_told = False
    for line in (TOP / "docs" / "PROVED.md").read_text().splitlines():
        is_told = line.startswith(HEADS_OF_TABLES) or is_told and line.startswith("|")
        crate = None
        for word in re.findall(r"`(\w+)`", line.rsplit("|", 2)[1]) if is_told else []:
            if word in crates:
                crate = word
            else:
                found.append((crate, word))
    return found


def not_told_once(edits, crates):
    """What is wrong with the tables: an edit that they lack or name twice, and a name that no edit has."""
    count = collections.Counter(told(crates))
    faults = [f"docs/PROVED.md: {crate} {name} stands there {count[crate, name]} times" for crate, name in edits if count[crate, name] != 1]
    return faults + [f"docs/PROVED.md: {crate} has no edit {name}" for crate, name in count if (crate, name) not in edits]


def main():
    faults = []
    text = [HEAD]
    crates = crate_names()
    edits = [(crate, edit.stem) for crate in crates for edit in (TOP / "crates" / crate / "must-fail").glob("*.edit")]
    for crate in crates:
        found = list(rows(crate, faults))
        if found:
            text.append(f"## `{crate}`\n\n" + "\n".join(found) + "\n")
    faults += not_told_once(edits, crates)
    (TOP / "docs" / "WRONG_BODIES.md").write_text("\n".join(text))
    print("\n".join(faults + [f"{len(edits)} edits, {len(faults)} faults"]))
    return 1 if faults or not edits else 0


if __name__ == "__main__":
    sys.exit(main())
