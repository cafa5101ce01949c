#!/usr/bin/env python3
"""Gives this copy of the repository the libraries that runs of `rt ci` on this machine have proved, so that checks begin at once.

    python3 checks/built_libraries.py

`rt ci` keeps each library that it has proved beside the kit, cut to its statements. A check over statements is as good as one over the whole
library, and says `statements=trusted`; `rt check` by itself proves all crates below anew. This puts what is kept of the text that stands here
into crates/NAME/out/rlib, with the stamp by which `rt` takes it for built: `rt check`, `rt plant`, `rt tidy` and `rt test` then prove one crate
alone. It names the crates of which nothing is kept: `rt ci NAME..` proves them. The verdict is always that of `rt ci`, which takes none of it.
`checks/make_program.py` takes a program from there too, where a run has proved these very files.
"""

import functools
import hashlib
import importlib.machinery
import json
import os
import pathlib
import shutil
import sys
import types

TOP = pathlib.Path(__file__).resolve().parent.parent
KIT = pathlib.Path(os.path.realpath(shutil.which("rt") or "/opt/rattle/bin/rt")).parent


def load(name, module):
    """One of the kit's own programs, which are Python without a suffix."""
    made = types.ModuleType(module)
    made.__file__ = str(KIT / name)
    importlib.machinery.SourceFileLoader(module, made.__file__).exec_module(made)
    return made


def kit():
    """The kit's `rt`, told of what a verdict rests on beside the text: what HANDLES allows."""
    sys.dont_write_bytecode = True
    sys.path.insert(0, str(KIT))
    os.chdir(TOP)
    rt = load("rt", "rt_of_the_kit")
    rt.Crate.allowed = rt.handles_of(str(TOP))
    # Both go over all crates below, and over what these stand on once more.
    rt.Crate.stamp = functools.lru_cache(maxsize=None)(rt.Crate.stamp)
    rt.Crate.below = functools.lru_cache(maxsize=None)(rt.Crate.below)
    return rt


def crates_within(rt, names):
    """The crates of these names and those that they stand on, the lowest first; all where no name is given."""
    crates = rt.crates_of(str(TOP))
    wanted = {below.name for it in crates if it.name in names for below in [it, *it.below()]}
    return [it for it in crates if not names or it.name in wanted]


def kept_of(kept, crates):
    """The crates of which an earlier run has kept what stands here, each with the key under which it is; and the others."""
    keys, lacking = [], []
    for crate in crates:
        key = None if any(below in lacking for below in crate.below()) else kept.key(crate)
        place = key and pathlib.Path(kept.place(crate, False, key), "made.json")
        if not place or not place.is_file():
            lacking.append(crate)
            continue
        keys.append((crate, key))
        # The sum of the library as it was built, which the keys of those above it need.
        files = [tuple(row) for row in json.loads(place.read_text(encoding="utf-8"))["files"]]
        kept.rlibs[crate.name] = hashlib.sha256(repr([] if crate.is_program else files).encode()).hexdigest()
    return keys, lacking


def note_built(crate):
    """Has `rt` take the library in the crate's out/ for built of the text that stands here."""
    pathlib.Path(crate.folder, "out", "rlib", "stamp").write_text(crate.stamp(), encoding="utf-8")


def bring(rt, crates):
    """Puts what is kept of these crates into this copy, and answers those of which nothing is kept."""
    if not os.path.isdir(rt.STORE):
        return crates
    kept = rt.Kept(crates)
    keys, lacking = kept_of(kept, crates)
    for crate, key in keys:
        shutil.rmtree(f"{crate.folder}/out/rlib", ignore_errors=True)
        if not kept.give(crate, False, key):
            lacking.append(crate)
        elif not crate.is_program:
            note_built(crate)
    return lacking


def main():
    rt = kit()
    crates = crates_within(rt, [])
    lacking = [it.name for it in bring(rt, crates)]
    print(f"{len(crates) - len(lacking)} of {len(crates)} crates are there" + (f"; not kept: {' '.join(lacking)}" if lacking else ""))


if __name__ == "__main__":
    main()
