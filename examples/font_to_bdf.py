"""Makes a BDF font of any size from a TrueType font, for `dvbsub compile`. It wants Pillow (Debian: python3-pil).

    python3 examples/font_to_bdf.py FONT.ttf ROWS >OUT.bdf

ROWS is the height of a line, 8 to 256. The font has the characters of CHARACTERS below that FONT has: Latin-1, Latin
Extended-A, Greek, Cyrillic, and the usual signs. More can be named behind ROWS, as 1E00-1EFF. `examples/sans24.bdf` and
`examples/sans36.bdf` were made from DejaVu Sans Condensed Bold of the Debian package fonts-dejavu-extra (licence:
`examples/sans_licence.txt`):

    python3 examples/font_to_bdf.py /usr/share/fonts/truetype/dejavu/DejaVuSansCondensed-Bold.ttf 24 >sans24.bdf
"""

import os
import sys

from subtitles.truetype import characters_of

try:
    from PIL import Image, ImageDraw, ImageFont
except ImportError:
    sys.exit(f"{os.path.basename(sys.argv[0])} wants Pillow (Debian: python3-pil), for this python3")

CHARACTERS = ["20-7E", "A0-17F", "192", "218-21B", "2C6-2C7", "2D8-2DD", "384-38A", "38C-3CE", "400-45F", "490-491",
              "2010-2015", "2018-201E", "2020-2022", "2026", "2030", "2032-2033", "2039-203A", "20AC", "2116", "2122",
              "215B-215E", "2190-2193", "2212", "266A-266B"]


def characters_in(ranges):
    """The numbers of some ranges of hexadecimal numbers."""
    for text in ranges:
        first, _, last = text.partition("-")
        yield from range(int(first, 16), int(last or first, 16) + 1)


def face_of(path, rows):
    """The font in the greatest size whose lines have no more rows, and how many of them are above the base line."""
    for points in range(rows * 2, 3, -1):
        face = ImageFont.truetype(path, points)
        up, down = face.getmetrics()
        if up + down <= rows:
            return face, up + (rows - up - down + 1) // 2
    sys.exit("no size is small enough")


def glyph(face, code, rows, base):
    """The lines of a glyph: the pen's way, the box that has all ink, and its rows."""
    letter, wide = chr(code), 4 * rows
    image = Image.new("1", (wide, rows))
    ImageDraw.Draw(image).text((rows, base), letter, font=face, fill=1, anchor="ls")
    left, top, right, bottom = image.getbbox() or (rows, base, rows, base)
    across, tall = right - left, bottom - top
    pen = min(255, max(0, round(face.getlength(letter))))
    out = [f"STARTCHAR U+{code:04X}", f"ENCODING {code}", f"DWIDTH {pen} 0",
           f"BBX {across} {tall} {left - rows} {base - bottom}", "BITMAP"]
    digits = (across + 7) // 8 * 2
    for y in range(top, bottom):
        bits = sum(1 << (4 * digits - 1 - x) for x in range(across) if image.getpixel((left + x, y)))
        out.append(f"{bits:0{digits}X}")
    return out + ["ENDCHAR"]


def main(path, rows, ranges):
    if not 8 <= rows <= 256:
        sys.exit("ROWS is from 8 to 256")
    face, base = face_of(path, rows)
    known = characters_of(path)
    codes = sorted({code for code in characters_in(CHARACTERS + ranges) if known is None or code in known})
    glyphs = [glyph(face, code, rows, base) for code in codes]
    widest = max(int(lines[2].split()[1]) for lines in glyphs)
    print("STARTFONT 2.1")
    name = " ".join(face.getname())
    print(f"COMMENT Made by font_to_bdf.py from {os.path.basename(path)} ({name}); its licence holds")
    print(f"SIZE {rows} 75 75")
    print(f"FONTBOUNDINGBOX {max(1, min(256, widest))} {rows} 0 {base - rows}")
    print(f"STARTPROPERTIES 2\nFONT_ASCENT {base}\nFONT_DESCENT {rows - base}\nENDPROPERTIES")
    print(f"CHARS {len(glyphs)}")
    for lines in glyphs:
        print("\n".join(lines))
    print("ENDFONT")


if __name__ == "__main__":
    if len(sys.argv) < 3:
        sys.exit(__doc__)
    main(sys.argv[1], int(sys.argv[2]), sys.argv[3:])
