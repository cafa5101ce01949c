#!/usr/bin/env python3
"""Lines that are longer than the limit: 100 columns in code and clauses, 120 in definitions and proofs. To be run after `rt fmt`.

    python3 checks/long_lines.py                 how many there are, by file; status 1 where there are some, or no file is found
    python3 checks/long_lines.py --break FILE..  breaks them at an operator of the least depth

A broken line goes on four columns further in. A paragraph of comments with a long line is wrapped anew. Imports, lines
with texts, and lines with a name of more than 100 columns (the prover's, of a case) stay as they are. A file whose lines were broken is to be read again: the place that is
found is the one of least depth, and not always the one that reads best.
"""
import pathlib
import re
import sys
import textwrap

TOP = pathlib.Path(__file__).resolve().parent.parent
OPENING, CLOSING = "([{", ")]}"
# Before what a line may be broken, what binds least first.
OPERATORS = [[" → ", " × ", " ⊎ "], [" then ", " else "], [" || "], [" && "], [" ∙ ", " ++ ", " ∷ "], [" ≡ ", " ≤ ", " < "]]
SUMS = [" + ", " +ℤ ", " -ℤ "]
# Behind these no line is broken.
OPEN_WORDS = ("record", "if", "then", "else", "pub", "abbrev", "unfoldable", "using", "Type", "λ", "let", "ensures", "requires")
INDENT = 4


def limit_of(path):
    return 100 if pathlib.Path(path).suffix == ".rt" else 120


def sources():
    """The files of code, definitions and proofs of all crates, in folders of any depth."""
    patterns = ("src/**/*.rt", "specs/**/*.antt", "proofs/**/*.antt")
    return sorted(path for pattern in patterns for path in TOP.glob(f"crates/*/{pattern}"))


def is_long(line, limit):
    """Views and invariants of a type are definitions, which the formatter leaves on one line."""
    return len(line) > (120 if line.lstrip().startswith("ghost ") else limit)


def is_left_alone(line):
    is_of_one_word = any(len(word) > 100 for word in line.split())
    return line.lstrip().startswith(("use ", "ghost use ", "--", "//", "#[")) or '"' in line or is_of_one_word


def depths(line):
    """How many brackets are open before each character."""
    depth, found = 0, []
    for character in line:
        if character in CLOSING:
            depth -= 1
        found.append(depth)
        if character in OPENING:
            depth += 1
    return found


def is_between_words(line, place):
    """Whether a line may be broken at a space where no operator stands."""
    word = line[:place].split()[-1]
    after = line[place + 1 : place + 2]
    return line[place] == " " and after not in ")=:→×⊎{}<≤≡+-*/" and word[-1] not in "=:→×⊎,(<≤≡+-*/.∷" and word not in OPEN_WORDS and line[place + 1 :] != "where"


def best_place(line, limit, start):
    """The place of least depth: before an operator that binds least, else between two words or after a comma; the last such one."""
    depth, places = depths(line), []
    for rank, operators in enumerate(OPERATORS + [SUMS]):
        for operator in operators:
            place = line.find(operator, start + 9)
            while place != -1 and place <= limit:
                places.append((depth[place], rank, -place))
                place = line.find(operator, place + 1)
    for place in range(start + 9, min(limit, len(line) - 1) + 1):
        if is_between_words(line, place):
            places.append((depth[place], len(OPERATORS) + 1, -place))
        elif line[place - 1 : place + 1] == ", ":
            places.append((depth[place], len(OPERATORS) + 2, -place))
    return min(places) if places else None


def broken(line, limit):
    """The line as several lines."""
    if not is_long(line, limit) or is_left_alone(line):
        return [line]
    further = " " * (len(line) - len(line.lstrip(" ")) + INDENT)
    lines, rest = [], line
    while len(rest) > limit:
        start = len(rest) - len(rest.lstrip(" "))
        best = best_place(rest, limit, start)
        equals = rest.find(" = ", start)
        if not lines and -1 < equals < limit and depths(rest)[equals] == 0 and (
            best is None or best[:2] > (0, 0) or len(rest) - equals <= limit - len(further)
        ):
            lines.append(rest[: equals + 2])
            rest = further + rest[equals + 3 :]
            continue
        if best is None:
            break
        lines.append(rest[: -best[2]].rstrip())
        rest = further + rest[1 - best[2] :].lstrip(" ")
    return lines + [rest]


def comment_of(line):
    """The indentation and the marker of a line of prose in a comment, and the prose; none of other lines."""
    found = re.match(r"( *(?:///|//!|//|--) )(?! |- |\||`|[0-9]+\. |#)(.*)$", line)
    return found.groups() if found else None


def wrapped(lines, limit):
    """The lines, with each paragraph of comments that has a long line wrapped anew."""
    result, paragraph = [], []
    for line in lines + [""]:
        comment = comment_of(line)
        if paragraph and (comment is None or comment[0] != paragraph[0][0]):
            prose = [head + text for head, text in paragraph]
            if any(len(text) > limit for text in prose):
                head = paragraph[0][0]
                words = " ".join(text for _, text in paragraph)
                prose = textwrap.wrap(
                    words,
                    limit,
                    initial_indent=head,
                    subsequent_indent=head,
                    break_long_words=False,
                    break_on_hyphens=False,
                )
            result += prose
            paragraph = []
        if comment is None:
            result.append(line)
        else:
            paragraph.append(comment)
    return result[:-1]


def count_long(path):
    limit = limit_of(path)
    with open(path) as file:
        lines = [line.rstrip("\n") for line in file]
    return sum(is_long(line, limit) and (comment_of(line) is not None or not is_left_alone(line)) for line in lines)


def main(arguments):
    if arguments[:1] == ["--break"]:
        for path in arguments[1:]:
            with open(path) as file:
                lines = file.read().split("\n")
            limit = limit_of(path)
            lines = [part for line in wrapped(lines, limit) for part in broken(line, limit)]
            with open(path, "w") as file:
                file.write("\n".join(lines))
        return
    total = 0
    paths = sources()
    for path in paths:
        count = count_long(path)
        total += count
        if count:
            print(f"{count:4} {path.relative_to(TOP)}")
    print(f"{total:4} in all, of {len(paths)} files")
    sys.exit(total > 0 or not paths)


if __name__ == "__main__":
    main(sys.argv[1:])
