#!/usr/bin/env python3
"""Makes docs/CALLS.md from the sources: every public call, what it answers, its conditions and its clauses.

    python3 checks/calls.py            writes the page
    python3 checks/calls.py --check    compares it with the sources, and ends with status 1 where it differs

It uses Python's standard library alone.
"""

import pathlib
import re
import sys

TOP = pathlib.Path(__file__).resolve().parent.parent
PAGE = TOP / "docs" / "CALLS.md"

HEAD = """# Calls

Every public call of the library crates, made by `checks/calls.py` from the sources: do not edit this page. A call's line has its first sentence,
the type that it answers, the names of its conditions (`requires`) and of its clauses (`ensures`). A clause without a name is written
*one clause*. The text of a clause stands in the source, its words in [DEFINITIONS.md](DEFINITIONS.md).

How to read it:

- Every call returns on every input that meets its conditions, and does nothing undefined: that is checked for each function, and is no clause.
- **Want of memory** (`Memory`, `NoMemory`, and `AllocError` or `AllocFailed` of the standard library) has no cause. Every other answer but success has its cause
  as a clause: `refused` says which faults an answer may have and what makes it so, `fault` that it is the one fault of these bytes,
  `cause` the same of an answer that depends on what sources and sinks did.
- `every_..` says that whatever has a cause is refused for it, and what has none is not refused, but for memory.
- `kept` and `unchanged` say that something is as it was before the call; `value` what a number or a test is; `written`, `bytes`, `text`,
  `taken` what was done; `stands` what a value stands for, of all that it was handed.
- A call of a law has no arguments and no code: its clauses are the law.
- Types of answers stand below the table of the crate that has them.
"""

TAIL = """
## What no clause says

- **`FileSource` and `FileSink`** have the clauses of their traits and no others: that one over a file that could not be opened fails at its first
  call is tested. They tell nothing of contents.
- **`MemSink::write`** fails for want of memory too, which has no cause.
- **`BandGate::enter`** promises nothing.
"""

DOC = re.compile(r"((?:^ *///.*\n)+)((?: *#\[.*\]\n)*)$", re.M)
USE = re.compile(r"^pub use (?:crate::)?(\w+)(?:::\w+)*::(?:\{([^}]*)\}|(\w+));", re.M)
OPEN_MODULE = re.compile(r"^pub mod (\w+);", re.M)
ITEM = re.compile(r"^pub (?:const )?(?:fn|struct|enum|trait|const|static|type) (\w+)", re.M)
CLAUSE = re.compile(r"\s*(requires|ensures)\s+(\w+ )?\s*(?=\{)")
IMPL = re.compile(r"^impl(?:<[^{]*?>)? (?:([A-Z]\w*)(?:<.*?>)? for )?([A-Z]\w*)(?:<.*?>)?\s*\{", re.M)


def crate_names():
    lines = (TOP / "crates.txt").read_text().splitlines()
    return [line.split(":")[0].split()[0] for line in lines if line.split("#")[0].strip()]


def sources_of(crate):
    """The text of each source file that is no test."""
    folder = TOP / "crates" / crate / "src"
    tests = re.findall(r"#\[cfg\(test\)\]\s*mod (\w+);", (folder / "lib.rt").read_text())
    files = [file for file in sorted(folder.rglob("*.rt")) if file.stem not in tests]
    return {file: file.read_text() for file in files}


def open_modules(crate):
    """The modules of a crate that are public, whose items are called by their names too."""
    return OPEN_MODULE.findall((TOP / "crates" / crate / "src" / "lib.rt").read_text())


def names_out(crate):
    """The names that the crate gives, by itself or in a public module, each with the module that it comes from."""
    names, folder = {}, TOP / "crates" / crate / "src"
    for module, several, single in USE.findall((folder / "lib.rt").read_text()):
        for name in (several or single).replace("\n", " ").split(","):
            if name.strip():
                names[name.split(" as ")[-1].strip()] = module
    for module in open_modules(crate):
        names.update(dict.fromkeys(ITEM.findall((folder / f"{module}.rt").read_text()), module))
    return names


def path_to(name, names, crate):
    """How a name of a crate is called: with its module, where that is public."""
    return f"{names[name]}::{name}" if names[name] in open_modules(crate) else name


def balanced(text, at):
    """The place behind the bracket that closes the one at a place."""
    pairs, depth = {"(": ")", "{": "}", "[": "]"}, 0
    opening = text[at]
    for place in range(at, len(text)):
        depth += (text[place] == opening) - (text[place] == pairs[opening])
        if depth == 0:
            return place + 1
    raise ValueError("a bracket is open")


def first_sentence(text, at):
    """The first sentence of the comment above a place."""
    found = DOC.search(text[:at])
    if not found:
        return ""
    words = re.sub(r"^ *///", "", found.group(1), flags=re.M).split("\n\n")[0]
    words = " ".join(words.split())
    return re.split(r"(?<=[.])\s", words)[0].replace("|", "\\|")


def call_at(text, found):
    """A call's name, answer, conditions and clauses, from where its name ends."""
    place = text.index("(", found.end() - 1)
    place = balanced(text, place)
    answer = re.compile(r"\s*->\s*").match(text, place)
    kind = ""
    if answer:
        ends = re.compile(r"\n\s*(?:requires|ensures|where|//|\{|$)|\s*[{;]")
        end = ends.search(text, answer.end())
        # The `;` of an array's type is none.
        while text.count("[", answer.end(), end.start()) > text.count("]", answer.end(), end.start()):
            end = ends.search(text, end.end())
        kind, place = " ".join(text[answer.end() : end.start()].split()), end.start()
    asked, told = [], []
    while True:
        skipped = re.compile(r"(?:\s*//[^\n]*\n|\s*where[^{;]*?(?=\n\s*(?:requires|ensures|\{)))").match(text, place)
        if skipped:
            place = skipped.end()
            continue
        clause = CLAUSE.match(text, place)
        if not clause:
            break
        (asked if clause.group(1) == "requires" else told).append((clause.group(2) or "").strip())
        place = balanced(text, clause.end())
    return kind, asked, told


def calls_in(text, start, end, pattern, owner):
    for found in re.compile(pattern, re.M).finditer(text, start, end):
        kind, asked, told = call_at(text, found)
        name = f"{owner}::{found.group(1)}" if owner else found.group(1)
        yield name, first_sentence(text, found.start()), kind, asked, told


def iterator_calls(text, start, end, owner):
    """The `next` of an iterator, whose clauses are ghost items."""
    kind = re.compile(r"type Item = ([^;]*);").search(text, start, end)
    told = re.compile(r"^    ghost (\w+) = \{", re.M).findall(text, start, end)
    if kind and told:
        yield f"{owner}::next", "", f"Option<{kind.group(1)}>", [], told


def calls_of(crate):
    names, calls = names_out(crate), []
    for file, text in sources_of(crate).items():
        for found in re.finditer(r"^pub fn (\w+)[(<]", text, re.M):
            if names.get(found.group(1)) == file.stem:
                kind, asked, told = call_at(text, found)
                calls.append((path_to(found.group(1), names, crate), first_sentence(text, found.start()), kind, asked, told))
        for found in re.finditer(r"^pub trait (\w+)[^{]*\{", text, re.M):
            if found.group(1) in names:
                end = balanced(text, found.end() - 1)
                calls += calls_in(text, found.end(), end, r"^    fn (\w+)[(<]", path_to(found.group(1), names, crate))
        for found in IMPL.finditer(text):
            trait, owner = found.groups()
            end = balanced(text, found.end() - 1)
            if owner in names and trait is None:
                calls += calls_in(text, found.end(), end, r"^    pub fn (\w+)[(<]", path_to(owner, names, crate))
            elif owner in names and trait == "Iterator":
                calls += iterator_calls(text, found.end(), end, path_to(owner, names, crate))
    return calls


def variants_of(body):
    """The variants of an enum's body, each with its first sentence."""
    depth, place = 0, 0
    for found in re.finditer(r"[{}()]|^    ([A-Z]\w*)", body, re.M):
        if found.group(1) and depth == 0:
            place = found.start()
            yield found.group(1), first_sentence(body, place)
        depth += {"{": 1, "(": 1, "}": -1, ")": -1}.get(found.group(0), 0)


def enums_of(crate):
    names, enums = names_out(crate), {}
    for file, text in sources_of(crate).items():
        for found in re.finditer(r"^pub enum (\w+)[^{]*\{", text, re.M):
            if found.group(1) in names and names[found.group(1)] == file.stem:
                body = text[found.end() : balanced(text, found.end() - 1) - 1]
                enums[found.group(1)] = list(variants_of(body))
    return enums


def listed(names):
    if names == [""]:
        return "*one clause*"
    return ", ".join(f"`{name}`" if name else "*one clause*" for name in names)


def is_answer(enum, kinds):
    """Some call answers it, or a fault whose kind it is."""
    fault = re.sub(r"Kind$", "Fault", enum)
    return any(re.search(rf"\b(?:{enum}|{fault})\b", kind) for kind in kinds)


def section(crate, calls, enums, kinds):
    lines = [f"\n## {crate}\n"]
    if calls:
        lines += ["| call | what it does | answers | conditions | clauses |", "|---|---|---|---|---|"]
        for name, what, kind, asked, told in calls:
            answers = f"`{kind}`".replace("|", "\\|") if kind else ""
            lines.append(f"| `{name}` | {what} | {answers} | {listed(asked)} | {listed(told)} |".replace("|  |", "| |").replace("|  |", "| |"))
    for enum, variants in enums.items():
        if is_answer(enum, kinds):
            lines.append(f"\n`{enum}`:\n")
            lines += [f"- `{variant}`: {what}" if what else f"- `{variant}`" for variant, what in variants]
    return lines if len(lines) > 1 else []


def page():
    libraries = [crate for crate in crate_names() if (TOP / "crates" / crate / "src" / "lib.rt").exists()]
    calls = {crate: calls_of(crate) for crate in libraries}
    kinds = [kind for group in calls.values() for _, _, kind, _, _ in group]
    text = HEAD.splitlines()
    for crate in libraries:
        text += section(crate, calls[crate], enums_of(crate), kinds)
    return "\n".join(text) + "\n" + TAIL


def main(words):
    made = page()
    if words == ["--check"]:
        is_same = PAGE.read_text() == made
        print("docs/CALLS.md is that of the sources" if is_same else "docs/CALLS.md differs from the sources: run checks/calls.py")
        return 0 if is_same else 1
    PAGE.write_text(made)
    return 0


if __name__ == "__main__":
    sys.exit(main(sys.argv[1:]))
