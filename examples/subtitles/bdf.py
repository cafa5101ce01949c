"""Faces of BDF fonts: letters of one weight, on a box or with an outline, in whole multiples of their size."""

from dataclasses import dataclass, field

from .pictures import Picture

LEAN = 5  # An italic letter leans by one pixel to the right on so many rows.


class FontFault(Exception):
    """A font that the compiler refuses, or that is no font."""


@dataclass
class Glyph:
    """A glyph: how far the pen moves, the box's sides and its place, and the rows as numbers."""

    pen: int = -1
    box: tuple = ()
    rows: list = field(default_factory=list)


def number_in(words, at, least, most, line):
    """A number of a line, within its range."""
    try:
        number = int(words[at])
    except (IndexError, ValueError):
        raise FontFault(f"font line {line}: {' '.join(words)!r}: a number is missing") from None
    if not least <= number <= most:
        raise FontFault(f"font line {line}: {number} is not from {least} to {most}")
    return number


def box_in(words, least, line):
    """The sides and the place of a box."""
    sides = [number_in(words, at, least, 256, line) for at in (1, 2)]
    return (*sides, *(number_in(words, at, -256, 256, line) for at in (3, 4)))


class Font:
    """The glyphs of a BDF 2.1 file by their characters."""

    def __init__(self, lines):
        self.box, self.glyphs = None, {}
        self.read(iter(enumerate(lines, 1)))

    def read(self, lines):
        glyph, code, passed = None, None, False
        for line, text in lines:
            words = text.split()
            word = words[0] if words else ""
            if line == 1 and word != "STARTFONT":
                raise FontFault("font line 1: it does not begin with STARTFONT")
            if word in ("STARTPROPERTIES", "ENDPROPERTIES"):
                passed = word == "STARTPROPERTIES"
            elif passed:
                continue
            elif word == "FONTBOUNDINGBOX":
                self.box = box_in(words, 1, line)
            elif word == "STARTCHAR":
                if self.box is None:
                    raise FontFault(f"font line {line}: FONTBOUNDINGBOX is missing")
                glyph, code = Glyph(), None
            elif glyph is not None and word == "ENCODING":
                code = number_in(words, 1, -1, 0x10FFFF, line)
            elif glyph is not None and word == "DWIDTH":
                glyph.pen = number_in(words, 1, 0, 255, line)
            elif glyph is not None and word == "BBX":
                glyph.box = box_in(words, 0, line)
            elif glyph is not None and word == "BITMAP":
                self.bitmap(glyph, lines, line)
            elif glyph is not None and word == "ENDCHAR":
                self.keep(glyph, code, line)
                glyph = None
            elif word == "ENDFONT":
                return
        raise FontFault("the font ends before ENDFONT")

    @staticmethod
    def bitmap(glyph, lines, line):
        if glyph.pen < 0 or not glyph.box:
            raise FontFault(f"font line {line}: DWIDTH or BBX is missing")
        digits = 2 * ((glyph.box[0] + 7) // 8)
        for _ in range(glyph.box[1]):
            line, text = next(lines, (line + 1, ""))
            row = text.strip()
            if len(row) != digits:
                raise FontFault(f"font line {line}: a row has {len(row)} digits, and not {digits}")
            glyph.rows.append(int(row or "0", 16) >> (4 * digits - glyph.box[0]))

    def keep(self, glyph, code, line):
        if code is None or not glyph.box:
            raise FontFault(f"font line {line}: ENCODING or BBX is missing")
        if code in self.glyphs:
            raise FontFault(f"font line {line}: character {code} stands twice")
        if code >= 0:
            self.glyphs[code] = glyph

    def width(self, text):
        return sum(self.glyphs[ord(letter)].pen for letter in text)

    def ink(self, text, width, left=0):
        """The rows of a text as numbers of `width` bits, the pen from `left` on; what lies outside is clipped."""
        _, height, _, bottom = self.box
        rows, pen = [0] * height, left
        for letter in text:
            glyph = self.glyphs[ord(letter)]
            across, tall, from_left, from_bottom = glyph.box
            top = (height + bottom) - (tall + from_bottom)
            shift = width - (pen + from_left) - across
            for number, bits in enumerate(glyph.rows):
                if 0 <= top + number < height:
                    rows[top + number] |= bits << shift if shift >= 0 else bits >> -shift
            pen += glyph.pen
        return [row & (1 << width) - 1 for row in rows]


def scaled(rows, width, scale):
    """Rows whose bits are as many times as wide and high."""
    if scale == 1:
        return rows
    bits = {ord(bit): bit * scale for bit in "01"}
    wide = [int(f"{row:0{width}b}".translate(bits), 2) for row in rows]
    return [row for row in wide for _ in range(scale)]


def spread(rows, reach):
    """Rows whose bits reach that many pixels further to each side."""
    across = list(rows)
    for step in range(1, reach + 1):
        across = [now | row << step | row >> step for now, row in zip(across, rows)]
    out = list(across)
    for step in range(1, reach + 1):
        for number in range(len(rows)):
            if number >= step:
                out[number] |= across[number - step]
            if number + step < len(rows):
                out[number] |= across[number + step]
    return out


def coloured(row, width, code):
    """A row of bits as bytes of a code, 0 elsewhere."""
    return f"{row:0{width}b}".encode().translate(bytes.maketrans(b"01", bytes([0, code])))


class BitmapFace:
    """Draws lines by a BDF font."""

    is_smooth = False

    def __init__(self, lines, scale=1, style="box"):
        self.font, self.scale, self.style = Font(lines), scale, style
        self.tall = self.font.box[1] * scale
        self.reach = max(1, self.tall // 24) if style == "outline" else 0
        self.height = self.tall + 2 * self.reach
        self.height += self.height % 2
        self.picture_height = self.tall if style == "box" else self.height
        self.space = self.font.glyphs[32].pen * scale if 32 in self.font.glyphs else 0
        self.pad = self.space if style == "box" else self.reach + 1

    def has(self, letter):
        return ord(letter) in self.font.glyphs

    def lean(self):
        return self.tall // LEAN

    def width(self, text, italic=False):
        return self.font.width(text) * self.scale

    def line_width(self, line):
        """The width of a line's picture."""
        leans = self.lean() if any(span.italic for span in line) else 0
        return sum(self.width(span.text) for span in line) + 2 * self.pad + leans

    def is_text(self, line):
        """Whether the compiler can draw the line by itself."""
        return self.scale == 1 and self.style == "box" and len(line) == 1 and not line[0].italic

    def text_of(self, line):
        """The text of a `cue` record: the letters with a space on each side."""
        return f" {line[0].text} " if self.space else line[0].text

    def masks(self, line, width):
        """The rows of each span's letters, before they grow and lean; none has a pixel of another."""
        pen, seen, masks = self.pad // self.scale if self.style == "box" else 0, None, []
        for span in line:
            rows = self.font.ink(span.text, width, pen)
            rows = [row & ~other for row, other in zip(rows, seen)] if seen else rows
            seen = [row | other for row, other in zip(rows, seen)] if seen else rows
            masks.append(rows)
            pen += self.font.width(span.text)
        return masks

    def placed(self, rows, plain, width, italic):
        """The rows of a span within the picture: grown, leaning, and with the outline's reach around them."""
        rows = scaled(rows, plain, self.scale)
        spare = width - plain * self.scale
        left = 0 if self.style == "box" else self.pad
        rows = [row << spare - left for row in rows]
        if italic:
            rows = [row >> (len(rows) - 1 - number) // LEAN for number, row in enumerate(rows)]
        rows = [0] * self.reach + rows + [0] * self.reach
        return rows + [0] * (self.height - len(rows))

    def plain(self, line, width, palette):
        """The picture that the compiler draws of a text."""
        codes = bytes.maketrans(b"01", bytes([1, palette.ramps[palette.known(line[0].colour)][-1]]))
        rows = self.font.ink(self.text_of(line), width)
        rows = tuple(f"{row:0{width}b}".encode().translate(codes) for row in rows)
        return Picture(width, self.tall, palette.depth, rows)

    def draw(self, line, palette):
        """The picture of a line."""
        width = self.line_width(line)
        if self.is_text(line):
            return self.plain(line, width, palette)
        inner = sum(self.font.width(span.text) for span in line)
        inner += 2 * (self.pad // self.scale) if self.style == "box" else 0
        spans = [self.placed(rows, inner, width, span.italic) for rows, span in zip(self.masks(line, inner), line)]
        seen = [0] * self.height
        out = [bytes(width)] * self.height
        for rows, span in zip(spans, line):
            rows = [row & ~other for row, other in zip(rows, seen)]
            seen = [row | other for row, other in zip(rows, seen)]
            code = palette.ramps[palette.known(span.colour)][-1]
            out = [both(now, coloured(row, width, code)) for now, row in zip(out, rows)]
        full = (1 << width) - 1
        ground = [full] * self.tall if self.style == "box" else spread(seen, self.reach)
        ground += [0] * (self.height - len(ground))
        out = [both(now, coloured(under & ~row, width, 1)) for now, under, row in zip(out, ground, seen)]
        return Picture(width, self.picture_height, palette.depth, tuple(out[:self.picture_height]))


def both(first, second):
    """Two rows of which at each place one is 0."""
    joined = int.from_bytes(first, "big") | int.from_bytes(second, "big")
    return joined.to_bytes(len(first), "big")
