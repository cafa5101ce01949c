#!/usr/bin/env python3
"""Looks for public definitions that have one name in two crates.

    python3 checks/names.py

A type or a relation (a name with a capital letter) stands in one crate alone, so that a reader of a contract knows which is meant. Functions that compute
(`pid_of`, `size_of`) are read with their module's name, and may stand in several. Definitions in `specs/Private` are their crate's own. Ends with 1 where a
name stands twice, or none is found.
"""

import collections
import pathlib
import re
import sys

TOP = pathlib.Path(__file__).resolve().parent.parent
DEFINITION = re.compile(r"^(?:(?:abbrev|unfoldable|data|record|inline) )*pub (?:(?:abbrev|unfoldable|data|record|inline) )*([A-Z]\w*)", re.MULTILINE)


def crates_of_names():
    """Each capital name with the modules that define it, by crate."""
    found = collections.defaultdict(lambda: collections.defaultdict(set))
    for file in sorted(TOP.glob("crates/*/specs/**/*.antt")):
        parts = file.relative_to(TOP / "crates").parts
        if "Private" not in parts:
            for name in DEFINITION.findall(file.read_text(encoding="utf-8")):
                found[name][parts[0]].add(file.stem)
    return found


def main():
    found = crates_of_names()
    twice = {name: crates for name, crates in found.items() if len(crates) > 1}
    for name, crates in sorted(twice.items()):
        print(f"{name}: " + ", ".join(f"{crate} ({' '.join(sorted(modules))})" for crate, modules in crates.items()))
    print(f"{len(found)} names, {len(twice)} in several crates")
    return 1 if twice or not found else 0


if __name__ == "__main__":
    sys.exit(main())
