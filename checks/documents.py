#!/usr/bin/env python3
"""Checks what the documents point at: links and their headings, files, definitions, and a row for each crate.

    python3 checks/documents.py

prints each thing that is not there, and ends with status 1 where there is one. It uses Python's standard library alone.
"""

import pathlib
import re
import sys

TOP = pathlib.Path(__file__).resolve().parent.parent
DOCUMENTS = [TOP / "README.md", TOP / "bench" / "README.md", *sorted((TOP / "docs").glob("*.md"))]
LINK = re.compile(r"\[[^\]]*\]\(([^)\s]+)\)")
PATH = re.compile(r"(?<![\w/.-])(?:docs|checks|examples|bench|crates)/[\w./-]*[\w-]")
HEADING = re.compile(r"^#+ +(.*)$", re.M)
DEFINED = re.compile(r"^(?:(?:abbrev|unfoldable) )?pub (?:record |data )?([A-Za-z_]+)", re.M)
DATA_CASE = re.compile(r"^  (?:pub )?([a-zA-Z_]+) :", re.M)


def anchor_of(heading):
    kept = re.sub(r"[^\w\- ]", "", heading.strip().lower())
    return kept.replace(" ", "-")


def anchors_of(path):
    return {anchor_of(heading) for heading in HEADING.findall(path.read_text())}


def link_faults(path, text):
    for target in LINK.findall(text):
        if target.startswith(("http:", "https:")):
            continue
        file, _, anchor = target.partition("#")
        there = path if not file else (path.parent / file).resolve()
        if not there.exists():
            yield f"no file {target}"
        elif anchor and anchor not in anchors_of(there):
            yield f"no heading {target}"


def path_faults(text):
    for name in sorted(set(PATH.findall(text))):
        if "NAME" in name or "CRATE" in name:
            continue
        if not (TOP / name).exists() and not list(TOP.glob(name + ".*")):
            yield f"no file {name}"


def crate_names():
    lines = (TOP / "crates.txt").read_text().splitlines()
    return [line.split(":")[0].split()[0] for line in lines if line.split("#")[0].strip()]


def specs_of(crate):
    folder = TOP / "crates" / crate / "specs"
    return {file.stem: file for file in folder.glob("*.antt") if file.stem not in ("Lib", "Private")}


def names_in(crate, module):
    text = specs_of(crate)[module].read_text()
    return set(DEFINED.findall(text)) | set(DATA_CASE.findall(text))


def crate_before(line, at, crates, usual):
    named = [(m.start(), m.group(1)) for m in re.finditer(r"`([a-z_0-9]+)`", line[:at]) if m.group(1) in crates]
    return named[-1][1] if named else usual


def definition_faults(text, crates):
    """Each `Module.name` is a definition of the crate named before it, each file.rt a source of that crate."""
    usual = "decoder_model"
    for line in text.splitlines():
        section = re.match(r"### `([a-z_0-9]+)`", line)
        if section:
            usual = section.group(1)
        for m in re.finditer(r"`([A-Z]\w+)\.([A-Za-z_]\w*)`", line):
            crate, module, name = crate_before(line, m.start(), crates, usual), m.group(1), m.group(2)
            if module not in specs_of(crate) or name not in names_in(crate, module):
                yield f"no definition {crate} {module}.{name}"
        for m in re.finditer(r"`([\w/]+\.rt)`", line):
            crate = crate_before(line, m.start(), crates, usual)
            if not (TOP / "crates" / crate / "src" / m.group(1)).exists():
                yield f"no source {crate}/src/{m.group(1)}"


def glossary_faults(text, crates):
    """Each module of the last column is one of the crate named before it."""
    for line in text.splitlines():
        cells = line.split("|")
        if len(cells) == 5:
            last = cells[3]
            for m in re.finditer(r"`([A-Z]\w+)`", last):
                crate = crate_before(last, m.start(), crates, "")
                if crate and m.group(1) not in specs_of(crate):
                    yield f"no module {crate} {m.group(1)}"


def recipe_faults(text, crates):
    """Each file of a recipe is there: its crate, or its folder, is that of the file named before it."""
    folder = pathlib.Path()
    for name in re.findall(r"`([^`\n]+)`", text):
        if name in crates:
            folder = TOP / "crates" / name
        if not re.fullmatch(r"[\w/.-]+\.(rt|antt|edit|py|md)|[\w-]+/[\w/-]+", name) or name.startswith("crates/"):
            continue
        first, _, _ = name.partition("/")
        crate = first if first in crates else folder.relative_to(TOP / "crates").parts[0] if folder.parts else ""
        places = [TOP / name, TOP / "crates" / name, TOP / "crates" / crate / name, folder / name]
        there = [place for place in places if place.exists()]
        if not there:
            yield f"no file {name}"
        elif "crates" in there[0].parts:
            folder = there[0] if there[0].is_dir() else there[0].parent


def module_faults(text, crates):
    """Each module of definitions stands in a row of its crate, and each row names modules that are there."""
    sections = re.split(r"^### `([a-z_0-9]+)`$", text, flags=re.M)
    listed = dict(zip(sections[1::2], sections[2::2]))
    for crate in crates:
        section = listed.get(crate, "")
        for module in specs_of(crate):
            if f"`{module}`" not in section and f"`{module}." not in section:
                yield f"no row for {crate} {module}"
        for line in section.splitlines():
            cells = line.split("|")
            if len(cells) < 5:
                continue
            for module in re.findall(r"`([A-Z]\w+)`", cells[2]):
                if module not in specs_of(crate) and not any(module in names_in(crate, m) for m in specs_of(crate)):
                    yield f"no module {crate} {module}"


def row_faults(text, crates):
    rows = [line for line in text.splitlines() if line.startswith("| ")]
    first_cells = " ".join(line.split("|")[1] for line in rows)
    return [f"no row for {crate}" for crate in crates if f"`{crate}`" not in first_cells]


def main():
    crates = crate_names()
    faults = []
    for path in DOCUMENTS:
        text = path.read_text()
        found = list(link_faults(path, text)) + list(path_faults(text))
        if path.name == "DEFINITIONS.md":
            found += list(definition_faults(text, set(crates))) + list(module_faults(text, crates))
        if path.name == "GLOSSARY.md":
            found += list(definition_faults(text, set(crates))) + list(glossary_faults(text, set(crates)))
        if path.name == "CHANGES.md":
            found += list(recipe_faults(text, set(crates)))
        if path.name == "PROVED.md":
            found += row_faults(text, crates)
        faults += [f"{path.relative_to(TOP)}: {fault}" for fault in found]
    print("\n".join(faults + [f"{len(DOCUMENTS)} documents, {len(faults)} faults"]))
    return 1 if faults else 0


if __name__ == "__main__":
    sys.exit(main())
