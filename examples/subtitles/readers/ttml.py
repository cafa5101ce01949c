"""TTML and EBU-TT-D files: paragraphs with times, line breaks, and the styles that subtitles use.

Read are body, div, p, span and br; begin, end and dur; style and region by reference; and of the styles color,
fontStyle, textAlign, displayAlign, origin, extent, display and visibility. Other elements are passed over with what is
in them.
"""

import re
import xml.etree.ElementTree as tree
from dataclasses import dataclass, field
from fractions import Fraction

from ..colours import colour_of
from ..cues import BOTTOM, CENTRE, LEFT, RIGHT, TOP, WHITE, Cue, Span, lines_of

CLOCK = re.compile(r"(\d+):(\d\d):(\d\d)(?:[.,](\d+)|[:;](\d+)(?:\.\d+)?)?")
OFFSET = re.compile(r"(\d+)(?:\.(\d+))?(h|ms|m|s|f|t)")
LENGTH = re.compile(r"(\d+(?:\.\d+)?)(%|px|c|rh|rw)")
STYLES = ("color", "fontStyle", "textAlign", "displayAlign", "origin", "extent", "display", "visibility", "fontWeight",
          "textDecoration")


def local(name):
    """A name without its namespace."""
    return name.rpartition("}")[2]


def attribute(element, name):
    """The value of an attribute in whatever namespace, or None."""
    return next((value for key, value in element.attrib.items() if local(key) == name), None)


def number_of(root, name, default):
    """The number that an attribute of the file says, above 0."""
    text = attribute(root, name)
    try:
        number = Fraction(text) if text else Fraction(default)
    except (ValueError, ZeroDivisionError):
        number = Fraction(0)
    if number <= 0:
        raise ValueError(f"the {name} {text!r}")
    return number


@dataclass(frozen=True)
class Clock:
    """How times count: frames a second as they are shown and as codes count them, ticks a second, and for time codes
    (None for others) how many frames are dropped each minute but the tenth."""

    frame_rate: Fraction
    counted: Fraction
    tick_rate: Fraction
    dropped: int = None

    @staticmethod
    def of(root):
        counted = number_of(root, "frameRate", 30)
        many = re.fullmatch(r"(\d+)[ :]+(\d+)", (attribute(root, "frameRateMultiplier") or "1 1").strip())
        if not many or 0 in map(int, many.groups()):
            raise ValueError("the frameRateMultiplier")
        rate = counted * Fraction(int(many.group(1)), int(many.group(2)))
        ticks = rate * number_of(root, "subFrameRate", 1) if attribute(root, "frameRate") else 1
        is_code = attribute(root, "timeBase") == "smpte"
        drops = 2 if attribute(root, "dropMode") == "dropNTSC" else 0
        return Clock(rate, counted, number_of(root, "tickRate", ticks), drops if is_code else None)

    def of_code(self, minutes, seconds, frames):
        """The seconds of a time code: its frames are counted."""
        dropped = self.dropped * (minutes - minutes // 10)
        return ((minutes * 60 + seconds) * self.counted + frames - dropped) / self.frame_rate

    def seconds(self, text):
        clock = CLOCK.fullmatch(text.strip())
        if clock:
            hours, minutes, seconds, part, frames = clock.groups()
            minutes = int(hours) * 60 + int(minutes)
            if self.dropped is not None and not part:
                return self.of_code(minutes, int(seconds), int(frames or 0))
            whole = Fraction(minutes * 60 + int(seconds))
            return whole + (int(frames) / self.frame_rate if frames else Fraction(int(part), 10 ** len(part)) if part else 0)
        offset = OFFSET.fullmatch(text.strip())
        if not offset:
            raise ValueError(f"the time {text!r}")
        whole, part, unit = offset.groups()
        number = int(whole) + (Fraction(int(part), 10 ** len(part)) if part else 0)
        one = {"h": 3600, "m": 60, "s": 1, "ms": Fraction(1, 1000), "f": 1 / self.frame_rate, "t": 1 / self.tick_rate}
        return Fraction(number * one[unit])


@dataclass(frozen=True)
class Look:
    """What holds for the letters within an element: their times, the styles of the elements around them and of the
    region, whether spaces are kept, and whether nothing is shown."""

    begin: Fraction = Fraction(0)
    end: Fraction = None
    own: dict = field(default_factory=dict)
    region: dict = field(default_factory=dict)
    is_kept: bool = False
    is_unseen: bool = False

    def style(self, name, default=None):
        """A style: elements stand in their region, so theirs counts first."""
        return self.own.get(name, self.region.get(name, default))


class Document:
    """The styles, the regions, the clock and the sides of a file."""

    def __init__(self, root):
        self.clock = Clock.of(root)
        self.styles = self.named(root, "style")
        self.regions = self.named(root, "region")
        sides = LENGTH.findall(attribute(root, "extent") or "")
        cells = re.findall(r"\d+", attribute(root, "cellResolution") or "32 15")
        self.tall = {"%": 100, "rh": 100, "c": float(cells[-1]), "px": float(sides[1][0]) if len(sides) == 2 else 0}

    @staticmethod
    def named(root, name):
        """The elements of a name that have an identifier, by it."""
        found = [element for element in root.iter() if local(str(element.tag)) == name]
        return {attribute(element, "id"): element for element in found if attribute(element, "id")}

    def begin(self, root):
        """The start of the programme."""
        begun = next((e.text for e in root.iter() if local(str(e.tag)) == "documentStartOfProgramme" and e.text), None)
        return self.clock.seconds(begun) if begun else Fraction(0)

    def styles_of(self, element, depth=0):
        """The styles that an element has: by reference, then its own and those of the styles within it."""
        found = {}
        for name in (attribute(element, "style") or "").split():
            if name in self.styles and depth < 8:
                found.update(self.styles_of(self.styles[name], depth + 1))
        for child in element:
            if local(str(child.tag)) == "style" and depth < 8:
                found.update(self.styles_of(child, depth + 1))
        found.update({local(key): value for key, value in element.attrib.items() if local(key) in STYLES})
        return found

    def times_within(self, element, look):
        """The times of an element, which are counted from those of the element around it."""
        begin, end = look.begin, look.end
        times = {name: attribute(element, name) for name in ("begin", "end", "dur")}
        if times["begin"]:
            begin = look.begin + self.clock.seconds(times["begin"])
        untils = [end] if end is not None else []
        if times["end"]:
            untils.append(look.begin + self.clock.seconds(times["end"]))
        if times["dur"]:
            untils.append(begin + self.clock.seconds(times["dur"]))
        return begin, min(untils, default=None)

    def within(self, element, look):
        """The look within an element."""
        region, name = look.region, attribute(element, "region")
        if name in self.regions:
            region = self.styles_of(self.regions[name])
        styles = self.styles_of(element)
        is_unseen = look.is_unseen or "none" in (styles.pop("display", None), region.get("display"))
        kept = {"preserve": True, "default": False}.get(attribute(element, "space"), look.is_kept)
        return Look(*self.times_within(element, look), {**look.own, **styles}, region, kept, is_unseen)

    def part(self, text, default):
        """The second of two lengths, in hundredths of the display's height."""
        lengths = LENGTH.findall(text or "")
        whole = self.tall.get(lengths[1][1]) if len(lengths) == 2 else None
        return 100 * float(lengths[1][0]) / whole if whole else default


def span_of(text, look):
    if look.is_unseen or look.style("visibility") == "hidden":
        return Span("")
    text = text if look.is_kept else re.sub(r"\s+", " ", text)
    return Span(text, look.style("fontStyle") in ("italic", "oblique"), colour_of(look.style("color", "white")) or WHITE)


def pieces_of(document, element, look):
    """The spans within a paragraph, each with its look, which has its times."""
    if element.text:
        yield look, span_of(element.text, look)
    for child in element:
        name = local(str(child.tag))
        if name == "br":
            yield look, Span("\n")
        elif name == "span":
            yield from pieces_of(document, child, document.within(child, look))
        if child.tail:
            yield look, span_of(child.tail, look)


def place_of(document, look):
    """The place by the region: where it begins, and where lines stand in it."""
    top = document.part(look.style("origin"), None)
    height = document.part(look.style("extent"), 100 - (top or 0))
    display = look.style("displayAlign", "after" if top is None else "before")
    row = {"before": top or 0, "center": (top or 0) + height / 2}.get(display, (top or 0) + height)
    align = {"left": LEFT, "start": LEFT, "right": RIGHT, "end": RIGHT}.get(look.style("textAlign"), CENTRE)
    return TOP if row < 50 else BOTTOM, align


def is_plain(look):
    """Whether letters would be bold or underlined."""
    return look.style("fontWeight") == "bold" or "underline" in look.style("textDecoration", "")


def cues_of(document, element, look, report):
    """The cues of a paragraph: one for each time from which on other letters of it are shown."""
    pieces = [piece for piece in pieces_of(document, element, look) if piece[1].text]
    words = [piece for piece in pieces if piece[1].text.strip()]
    if any(own.end is None for own, _ in words):
        report.add("no_times", text="".join(span.text for _, span in pieces).strip())
        return
    if any(is_plain(own) for own, _ in words):
        report.add("plain", look.begin)
    marks = sorted({time for own, _ in words for time in (own.begin, own.end)})
    place, align = place_of(document, look)
    for begin, end in zip(marks, marks[1:]):
        live = [span for own, span in pieces
                if not span.text.strip() and "\n" in span.text or own.begin <= begin and (own.end or end) >= end]
        lines = lines_of(live)
        if lines:
            yield Cue(begin, end, lines, place, align)


def walk(document, element, look, report):
    """The cues of all paragraphs within an element."""
    name = local(str(element.tag))
    if name == "p":
        yield from cues_of(document, element, document.within(element, look), report)
    elif name in ("body", "div"):
        own = document.within(element, look)
        for child in element:
            yield from walk(document, child, own, report)


def read(data, report):
    """The cues of a file, and the time at which its programme starts."""
    try:
        root = tree.fromstring(data)
    except tree.ParseError as fault:
        raise ValueError(f"no well-formed XML: {fault}") from fault
    if local(root.tag) != "tt":
        raise ValueError(f"its element is {local(root.tag)}, and not tt")
    document, look = Document(root), Look(is_kept=attribute(root, "space") == "preserve")
    cues = [cue for child in root for cue in walk(document, child, look, report)]
    return cues, document.begin(root)
