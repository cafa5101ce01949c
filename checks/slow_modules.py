#!/usr/bin/env python3
"""Tells where the time of a crate's check went: what each function's proof and each file of lemmas took, the slowest first.

    rm -rf crates/NAME/out/incremental; (cd crates/NAME; rt check --jobs 1); python3 checks/slow_modules.py crates/NAME [COUNT]

A check writes each module that it has checked into out/incremental as it is done with it, so that with one job the times between two files are
the times of modules. What belongs to one function (its code's steps, `Lts`, its `Proof`, its `Answers`) is summed. Times are by the clock: other
work on the machine counts.
"""

import collections
import pathlib
import re
import sys

# What a module's name ends with where it is a part of a function's proof.
PARTS = "Answers Code Given Goals Invariants Key Kinds Layout Lts Met Mir Named Proof Reads Statement Symbol TheLaws TheLink TheLinks Tie".split()
PART = re.compile(r"\.(" + "|".join(PARTS) + ")$")


def modules_of(folder):
    """The modules of a crate that a check has written, the first first: when, the crate's library, and the name."""
    found = []
    for file in pathlib.Path(folder, "out", "incremental").rglob("*.oantt"):
        name = file.name.removesuffix(".oantt").removesuffix(".decls")
        found.append((file.stat().st_mtime, name))
    return sorted(found)


def seconds_of(modules):
    """How long each function or file took."""
    seconds = collections.Counter()
    for (before, _), (after, name) in zip(modules, modules[1:]):
        seconds[PART.sub("", name)] += after - before
    return seconds


def main(folder, count):
    modules = modules_of(folder)
    if not modules:
        print(f"{folder}: no check has left anything here")
        return 1
    seconds = seconds_of(modules)
    for name, took in seconds.most_common(count):
        print(f"{took:7.1f} s  {name}")
    print(f"{sum(seconds.values()):7.1f} s  in all, {len(seconds)} functions and files")
    return 0


if __name__ == "__main__":
    sys.exit(main(sys.argv[1], int(sys.argv[2]) if len(sys.argv) > 2 else 20))
