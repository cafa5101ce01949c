"""Cues as the readers give them: times, place, and lines of spans."""

import re
import unicodedata
from dataclasses import dataclass, field
from fractions import Fraction
from typing import NamedTuple

TOP, BOTTOM = "top", "bottom"
LEFT, CENTRE, RIGHT = "left", "centre", "right"
WHITE = (255, 255, 255)

# Characters that show nothing: directions, joiners, soft hyphens, byte order marks and other controls.
UNSEEN = re.compile("[\x00-\x08\x0b-\x1f\x7f-\x9f\u00ad\u200b-\u200f\u202a-\u202e\u2060-\u2064\u2066-\u2069"
                    "\ufe0e\ufe0f\ufeff]")
SPACES = re.compile(r"[ \t\u00a0\u1680\u2000-\u200a\u202f\u205f\u3000]+")
BREAKS = re.compile("\r\n|[\r\n\u0085\u2028\u2029]")


class Span(NamedTuple):
    """Letters of one kind: their text, whether it is italic, and its colour in red, green and blue."""

    text: str
    italic: bool = False
    colour: tuple = WHITE

    def with_text(self, text):
        return Span(text, self.italic, self.colour)


@dataclass
class Cue:
    """A cue: seconds from the start of the programme, lines of spans, and where they stand."""

    start: Fraction
    end: Fraction
    lines: list = field(default_factory=list)
    place: str = BOTTOM
    align: str = CENTRE

    def text(self):
        return "\n".join("".join(span.text for span in line) for line in self.lines)


def joined(spans):
    """A line whose neighbours of one kind are one span, without spaces at its ends or two in a row."""
    out = []
    for span in spans:
        text = SPACES.sub(" ", span.text)
        if (not out or out[-1].text.endswith(" ")) and text.startswith(" "):
            text = text[1:]
        if not text:
            continue
        if out and (out[-1].italic, out[-1].colour) == (span.italic, span.colour):
            out[-1] = out[-1].with_text(out[-1].text + text)
        else:
            out.append(span.with_text(text))
    if out and out[-1].text.endswith(" "):
        out[-1] = out[-1].with_text(out[-1].text[:-1])
        if not out[-1].text:
            out.pop()
    return out


def lines_of(spans):
    """The lines of spans whose texts have line breaks: composed letters, nothing unseen, no empty line."""
    lines, line = [], []
    for span in spans:
        pieces = BREAKS.split(span.text)
        for number, piece in enumerate(pieces):
            if number:
                lines.append(line)
                line = []
            line.append(span.with_text(UNSEEN.sub("", unicodedata.normalize("NFC", piece))))
    lines.append(line)
    return [line for line in map(joined, lines) if line]
