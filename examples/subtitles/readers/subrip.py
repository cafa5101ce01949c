"""SubRip files: a number, a line of times, and lines of text."""

import re
from fractions import Fraction

from ..cues import BOTTOM, CENTRE, LEFT, RIGHT, TOP, Cue, lines_of
from .marks import braced, tagged_spans

TIME = r"(-?\d+)\s*:\s*(\d+)\s*:\s*(\d+)(?:\s*[,.:]\s*(\d+))?"
TIMES = re.compile(rf"^\s*{TIME}\s*--?>\s*{TIME}")
SHORT = re.compile(r"^\s*()(\d+)\s*:\s*(\d+)\s*[,.]\s*(\d+)\s*--?>\s*()(\d+)\s*:\s*(\d+)\s*[,.]\s*(\d+)")


def seconds_of(hours, minutes, seconds, part):
    """The seconds of a time whose part behind the comma may be missing."""
    negative = hours.startswith("-")
    whole = (abs(int(hours or 0)) * 60 + int(minutes)) * 60 + int(seconds)
    total = whole + (Fraction(int(part), 10 ** len(part)) if part else 0)
    return Fraction(-total if negative else total)


def blocks_of(text):
    """The times and the lines of each cue. A line of times begins a cue; a number just before it is not text."""
    blocks, number, before = [], None, ""
    for line in re.split("\r\n|\r|\n", text):
        times = TIMES.match(line) or SHORT.match(line)
        if times:
            number = end_block(blocks[-1][1], number) if blocks else number_in(before)
            blocks.append((times.groups(), []))
        elif blocks:
            blocks[-1][1].append(line)
        else:
            before = line if line.strip() else before
    return blocks


def number_in(line):
    """The number that a line is, or None."""
    return int(line) if re.fullmatch(r"\s*\d{1,9}\s*", line, re.A) else None


def end_block(lines, number):
    """Takes the next cue's number, and blank lines around it, from the end of a cue's lines; answers that number.

    It is one where it follows upon `number`, that of the cue, or stands alone just before the times."""
    is_last = bool(lines and lines[-1].strip())
    while lines and not lines[-1].strip():
        lines.pop()
    last = number_in(lines[-1]) if lines else None
    is_alone = is_last and (len(lines) == 1 or not lines[-2].strip())
    if last is not None and (is_alone or number is not None and last == number + 1):
        lines.pop()
        return last
    return None


def place_of(key, report, start):
    """The place and the alignment that a key of a numeric pad stands for."""
    if key in (4, 5, 6):
        report.add("middle", start)
    align = {1: LEFT, 0: RIGHT}.get(key % 3, CENTRE) if key else CENTRE
    return TOP if key in (7, 8, 9) else BOTTOM, align


def read(text, report):
    cues, blocks = [], blocks_of(text)
    if not blocks:
        raise ValueError("no line of times is in it, and it is of no other format that is read")
    for times, lines in blocks:
        start, end = seconds_of(*times[:4]), seconds_of(*times[4:])
        body, braces = braced("\n".join(line for line in lines if line.strip()), report)
        place, align = place_of(braces.key, report, start)
        cues.append(Cue(start, end, lines_of(tagged_spans(body, report)), place, align))
    return cues
