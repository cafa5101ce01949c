"""Lines of cues: letters that the face has, texts broken to lines that fit, and the regions that all lines need."""

import unicodedata
from collections import Counter
from dataclasses import dataclass, field
from functools import cached_property

from .colours import flat_palette, smooth_palette
from .cues import BOTTOM, CENTRE, LEFT, TOP, joined
from .pages import PLACES, Laid
from .sending import Region

INSTEAD = {
    "\u2010": "-", "\u2011": "-", "\u2012": "-", "\u2013": "-", "\u2014": "-", "\u2015": "-", "\u2212": "-",
    "\u2026": "...", "\u201c": '"', "\u201d": '"', "\u201e": '"', "\u201f": '"', "\u00ab": '"', "\u00bb": '"',
    "\u2018": "'", "\u2019": "'", "\u201a": "'", "\u201b": "'", "\u2032": "'", "\u2033": '"', "\u2039": "'",
    "\u203a": "'",
    "\u266a": "#", "\u266b": "#", "\u2022": "-", "\u00b7": ".", "\u00d7": "x", "\u2122": "TM", "\u20ac": "EUR",
    "\u0141": "L", "\u0142": "l", "\u00df": "ss", "\u1e9e": "SS", "\u00d8": "O", "\u00f8": "o", "\u00c6": "AE",
    "\u00e6": "ae", "\u0152": "OE", "\u0153": "oe", "\u00d0": "D", "\u00f0": "d", "\u0110": "D", "\u0111": "d",
    "\u00de": "Th", "\u00fe": "th",
    "\u0131": "i", "\u0126": "H", "\u0127": "h", "\u0166": "T", "\u0167": "t", "\u014a": "N", "\u014b": "n",
    "\u00a1": "!", "\u00bf": "?", "\t": " ", "\u00a0": " ",
}
LOOSE = 2   # Free pixels on each side of a region: some decoders lose what touches the right edge.


@dataclass(eq=False)
class Line:
    """A line: its sides, and what a record has of it: a text with the code of its letters, or the codes of a picture. It is
    drawn when its bytes are asked for."""

    spans: tuple
    width: int
    height: int
    align: str
    text: str
    code: int
    draw: object = field(repr=False)

    @cached_property
    def drawn(self):
        """The bytes of its segment, and the codes of its picture where it is none of a text."""
        picture = self.draw(self.spans)
        return picture.segment_bytes(), None if self.text else picture.codes()

    @property
    def segment(self):
        return self.drawn[0]

    @property
    def codes(self):
        return self.drawn[1]


def letter_for(letter, face):
    """What stands for a letter: itself, its parts or its base letter, or a question mark, whatever the face has."""
    base = unicodedata.normalize("NFD", letter)[0]
    tries = [letter, INSTEAD.get(letter, ""), unicodedata.normalize("NFKC", letter), base,
             unicodedata.normalize("NFKD", letter)[0], INSTEAD.get(base, ""), "?"]
    return next((other for other in tries if other and all(map(face.has, other))), "")


def shown_line(line, face, known, report, start):
    """A line of letters that the face has."""
    out = []
    for span in line:
        letters = []
        for letter in span.text:
            if letter not in known:
                known[letter] = letter_for(letter, face)
            if known[letter] != letter and not unicodedata.combining(letter):
                report.add("replaced", start, letter)
            letters.append("" if known[letter] != letter and unicodedata.combining(letter) else known[letter])
        out.append(span.with_text("".join(letters)))
    out = joined(out)
    if any(unicodedata.bidirectional(letter) in ("R", "AL") for span in out for letter in span.text):
        report.add("leftwards", start, "".join(span.text for span in out))
    return out


def words_of(line):
    """The words of a line, each a list of spans."""
    words = [[]]
    for span in line:
        for number, piece in enumerate(span.text.split(" ")):
            if number:
                words.append([])
            if piece:
                words[-1].append(span.with_text(piece))
    return [word for word in words if word]


def line_of(words):
    """The line of some words, with spaces between them."""
    spans = []
    for number, word in enumerate(words):
        if number:
            spans.append(spans[-1].with_text(" "))
        spans += word
    return joined(spans)


def cut_word(word, face, room):
    """The pieces of a word that is wider than a line."""
    pieces, piece = [], []
    for span in word:
        for letter in span.text:
            longer = joined(piece + [span.with_text(letter)])
            if piece and face.line_width(longer) > room:
                pieces.append(piece)
                longer = [span.with_text(letter)]
            piece = longer
    return pieces + [piece] if piece else pieces


def filled(widths, space, room):
    """How many words stand on each of the fewest lines, each as full as it can be."""
    counts, used = [0], 0
    for width in widths:
        if counts[-1] and used + space + width > room:
            counts.append(0)
        used = used + space + width if counts[-1] else width
        counts[-1] += 1
    return counts


def balanced(widths, space, room):
    """As many lines as the fewest, of nearly one width: by the least room for which they are no more."""
    most_lines = len(filled(widths, space, room))
    least, most = max(widths), room
    while least < most:
        middle = (least + most) // 2
        if len(filled(widths, space, middle)) <= most_lines:
            most = middle
        else:
            least = middle + 1
    return filled(widths, space, most)


def wrapped(line, face, room, report, start):
    """A line in lines that fit: as few as can be, of nearly one width."""
    if face.line_width(line) <= room:
        return [line]
    words = []
    for word in words_of(line):
        if face.line_width(word) > room:
            report.add("cut_words", start, "".join(span.text for span in word))
            words += cut_word(word, face, room)
        else:
            words.append(word)
    inner = room - (face.line_width(line) - sum(face.width(span.text, span.italic) for span in line))
    widths = [min(inner, sum(face.width(span.text, span.italic) for span in word)) for word in words]
    lines, at = [], 0
    for count in balanced(widths, face.width(" "), inner):
        lines.append(line_of(words[at:at + count]))
        at += count
    return lines


def lines_that_fit(cue, face, room, most_lines, known, report):
    """The lines of a cue; where they are too many and no line is a speaker's own, those of its whole text."""
    lines = [line for line in (shown_line(line, face, known, report, cue.start) for line in cue.lines) if line]
    out = [piece for line in lines for piece in wrapped(line, face, room, report, cue.start)]
    if len(out) > most_lines and not any(line[0].text.startswith(("-", "\u2013", "\u2014")) for line in lines):
        words = [word for line in lines for word in words_of(line)]
        whole = wrapped(line_of(words), face, room, report, cue.start)
        out = whole if len(whole) < len(out) else out
    if len(out) > len(lines):
        report.add("wrapped", cue.start, cue.text(), len(out) - len(lines))
    return [line for line in out if face.line_width(line) > 2 * face.pad]


def parts_of(lines, start, end, most_lines):
    """Groups of lines that stand one after the other, each as long as its letters ask."""
    groups = -(-len(lines) // most_lines)
    size = -(-len(lines) // groups)
    pieces = [lines[k:k + size] for k in range(0, len(lines), size)]
    letters = [sum(len(span.text) for line in piece for span in line) for piece in pieces]
    marks = [start + (end - start) * sum(letters[:k]) // sum(letters) for k in range(len(pieces) + 1)]
    return list(zip(marks, marks[1:], pieces))


class Layout:
    """Breaks and draws the lines of cues for a display."""

    def __init__(self, face, style, clear, display, margin, most_lines):
        self.face, self.style, self.clear = face, style, clear
        self.width, self.height = display
        self.side, self.rim = self.width * margin // 100, self.height * margin // 100 & ~1
        self.most_lines, self.palette, self.drawn, self.known = most_lines, None, {}, {}

    def room(self):
        return self.width - 2 * max(self.side, LOOSE)

    def lay(self, cues, clock, report):
        """The cues with their lines drawn, and times in frames."""
        broken = []
        for cue in cues:
            lines = lines_that_fit(cue, self.face, self.room(), self.most_lines, self.known, report)
            if not lines:
                report.add("no_text", cue.start)
                continue
            start = clock.frame(cue.start)
            end = max(clock.frame(cue.end), start + 1)
            parts = parts_of(lines, start, end, self.most_lines)
            if len(parts) > 1:
                report.add("parted", cue.start, cue.text())
            broken += [(first, max(last, first + 1), some, cue) for first, last, some in parts]
        self.palette = self.palette_of([lines for _, _, lines, _ in broken], report)
        laid = []
        for start, end, lines, cue in broken:
            text = "\n".join("".join(span.text for span in line) for line in lines)
            laid.append(Laid(start, end, [self.line(line, cue.align) for line in lines], cue.place, text))
        return laid

    def palette_of(self, texts, report):
        counts = Counter()
        for lines in texts:
            for line in lines:
                for span in line:
                    counts[span.colour] += len(span.text)
        make = smooth_palette if self.face.is_smooth else flat_palette
        palette = make(counts or Counter({(255, 255, 255): 1}), self.style, self.clear)
        for colour in counts:
            if colour not in palette.ramps:
                report.add("colours", None, "#%02x%02x%02x" % colour)
        return palette

    def line(self, line, align):
        """A line as an object, drawn once for all cues that have it."""
        key = (tuple(line), align)
        if key not in self.drawn:
            text = self.face.text_of(line) if self.face.is_text(line) else None
            code = self.palette.ramps[self.palette.known(line[0].colour)][-1]
            self.drawn[key] = Line(key[0], self.face.line_width(line), self.face.picture_height, align, text, code,
                                   lambda spans: self.face.draw(spans, self.palette))
        return self.drawn[key]

    def regions_of(self, steps):
        """The region of each place, wide and high enough for all its pages; None for a place without any."""
        regions = []
        for number, place in enumerate(PLACES):
            pages = {step.shown[number] for step in steps} - {None}
            if not pages:
                regions.append(None)
                continue
            width = max(line.width for page in pages for line in page.lines)
            if any(line.align != CENTRE for page in pages for line in page.lines):
                width = max(width, self.room())
            width += 2 * LOOSE + width % 2
            height = self.face.height * max(len(page.lines) for page in pages)
            y = self.rim if place == TOP else self.height - self.rim - height & ~1
            regions.append(Region(number, (self.width - width) // 2, y, width, height, self.palette.depth))
        return regions

    @staticmethod
    def number_of(place):
        """The number of a place's region."""
        return PLACES.index(place)

    def places_of(self, page, region):
        """Each line of a page with its corner in the region: at the bottom, or at the top of that of the top."""
        first = region.height - self.face.height * len(page.lines) if page.place == BOTTOM else 0
        for number, line in enumerate(page.lines):
            spare = region.width - line.width
            x = LOOSE if line.align == LEFT else spare // 2 if line.align == CENTRE else spare - LOOSE
            yield line, x, first + number * self.face.height
