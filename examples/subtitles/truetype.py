"""Faces of TrueType fonts, drawn by Pillow with grey edges, on a box or with an outline."""

import math
import os
import struct

from .bdf import FontFault
from .pictures import Picture

FAINT = 24      # Less ink than this, of 255, is none.
SLANTED = [("-BoldItalic", "-Bold"), ("-BoldOblique", "-Bold"), ("-Italic", "-Regular"), ("-Oblique", "-Regular"),
           ("-Italic", ""), ("-Oblique", ""), ("Italic", "")]


def pillow():
    try:
        from PIL import Image, ImageDraw, ImageFont
    except ImportError:
        raise FontFault("a TrueType font wants Pillow (Debian: python3-pil), for this python3; "
                        "BDF fonts want nothing") from None
    return Image, ImageDraw, ImageFont


def characters_of(path):
    """The characters for which a font file has glyphs, by its table cmap; None where it cannot be told."""
    with open(path, "rb") as file:
        data = file.read()
    try:
        start = struct.unpack_from(">I", data, 12)[0] if data[:4] == b"ttcf" else 0
        tables = [struct.unpack_from(">4sIII", data, start + 12 + 16 * k)
                  for k in range(struct.unpack_from(">H", data, start + 4)[0])]
        cmap = next(offset for name, _, offset, _ in tables if name == b"cmap")
        found = set()
        for k in range(struct.unpack_from(">H", data, cmap + 2)[0]):
            platform, kind, at = struct.unpack_from(">HHI", data, cmap + 4 + 8 * k)
            if (platform, kind) in ((0, 3), (0, 4), (3, 1), (3, 10)):
                found |= mapped(data, cmap + at)
        return found or None
    except (struct.error, StopIteration):
        return None


def mapped(data, at):
    """The characters of a subtable of format 4 or 12."""
    form = struct.unpack_from(">H", data, at)[0]
    found = set()
    if form == 4:
        count = struct.unpack_from(">H", data, at + 6)[0] // 2
        words = struct.unpack_from(f">{4 * count + 1}H", data, at + 14)
        ends, starts = words[:count], words[count + 1:2 * count + 1]
        for start, end in zip(starts, ends):
            found.update(range(start, end + 1))
        found.discard(0xFFFF)
    elif form == 12:
        for k in range(struct.unpack_from(">I", data, at + 12)[0]):
            start, end = struct.unpack_from(">II", data, at + 16 + 12 * k)
            found.update(range(start, end + 1))
    return found


def slanted(path):
    """The italic file beside a font's, or the font itself."""
    stem, ending = os.path.splitext(path)
    for new, old in SLANTED:
        if stem.endswith(old):
            other = stem[:len(stem) - len(old)] + new + ending
            if other != path and os.path.exists(other):
                return other
    return path


class SmoothFace:
    """Draws lines by a TrueType font."""

    is_smooth, scale = True, 1

    def __init__(self, path, size, style="outline", squeeze=1, italic=None):
        self.image, self.drawing, fonts = pillow()
        self.path, self.italic, self.style, self.squeeze = path, italic, style, squeeze
        self.height = self.picture_height = size + size % 2
        points = max(4, round(self.height * 0.78))
        try:
            self.fonts = [fonts.truetype(name, points) for name in (path, italic or slanted(path))]
        except OSError as fault:
            raise FontFault(f"{path}: {fault}") from None
        self.reach = max(1, round(self.height / 18)) if style == "outline" else 0
        self.pad = 2 * self.reach if self.reach else max(2, self.height // 5)
        self.characters = characters_of(path)
        up, down = self.fonts[0].getmetrics()
        self.base = round((self.height + up - down) / 2)

    def smaller(self, size):
        return SmoothFace(self.path, size, self.style, self.squeeze, self.italic)

    def has(self, letter):
        return self.characters is None or ord(letter) in self.characters

    def is_text(self, line):
        return False

    def width(self, text, italic=False):
        return math.ceil(self.fonts[italic].getlength(text) * self.squeeze)

    def line_width(self, line):
        ends = self.height // 8 if line and line[-1].italic else 0
        return sum(self.width(span.text, span.italic) for span in line) + 2 * self.pad + ends

    def mask(self, size, span, left, stroke):
        """How much ink of a span each pixel has, 0 to 255."""
        image = self.image.new("L", size)
        pen = self.drawing.Draw(image)
        pen.text((left, self.base), span.text, font=self.fonts[span.italic], fill=255, anchor="ls", stroke_width=stroke)
        return image

    def draw(self, line, palette):
        """The picture of a line: the ramp of the letters' colour over the outline or the box."""
        size = (math.ceil(self.line_width(line) / self.squeeze), self.height)
        shape = (self.line_width(line), self.height)
        codes, under, left = self.image.new("L", shape, 1 if self.style == "box" else 0), [], self.pad / self.squeeze
        places = []
        for span in line:
            places.append((span, left))
            left += self.fonts[span.italic].getlength(span.text)
        if self.style == "outline":
            for span, left in places:
                mask = self.fitted(self.mask(size, span, left, self.reach), shape)
                under.append(mask)
                steps = ramp_table(palette.edge, 0)
                codes.paste(mask.point(steps), mask=mask.point(lambda ink: 255 if ink >= FAINT else 0))
        for span, left in places:
            mask = self.fitted(self.mask(size, span, left, 0), shape)
            steps = ramp_table(palette.ramps[palette.known(span.colour)], 0)
            codes.paste(mask.point(steps), mask=mask.point(lambda ink: 255 if ink >= FAINT else 0))
        data, width = codes.tobytes(), shape[0]
        rows = tuple(data[k:k + width] for k in range(0, len(data), width))
        return Picture(width, self.height, palette.depth, rows)

    def fitted(self, mask, shape):
        return mask if mask.size == shape else mask.resize(shape, self.image.LANCZOS)


def ramp_table(codes, nothing):
    """For each amount of ink its code."""
    count = len(codes)
    return [nothing if ink < FAINT else codes[min(count - 1, ink * count // 256)] for ink in range(256)]
