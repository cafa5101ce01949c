"""Draws fonts of the characters of ASCII and the letters of Latin-1 as pen strokes, in a box of 8 by 14 pixels, or larger by two
factors.

    python3 examples/draw_subtitle_font.py > examples/subtitle.bdf
    python3 examples/draw_subtitle_font.py 2 3 > examples/television.bdf

Each character is a list of strokes parted by ";", each stroke a list of points "column,row" that straight lines join.
Row 0 stands on the base line. The pen is two pixels wide and one high, and grows with the letters.
"""

import sys
import unicodedata

ROUND = "1,0 0,1 0,7 1,8 3,8 4,7 4,1 3,0 1,0"
BOWL = "0,0 0,8 3,8 4,7 4,5 3,4 0,4"
SNAKE = "4,7 3,8 1,8 0,7 0,5 1,4 3,4 4,3 4,1 3,0 1,0 0,1"

STROKES = {
    " ": "", "!": "2,8 2,3; 2,0 2,0", '"': "1,8 1,6; 3,8 3,6", "#": "1,0 1,8; 3,0 3,8; 0,3 4,3; 0,5 4,5",
    "$": SNAKE + "; 2,9 2,-1", "%": "0,0 4,8; 0,7 0,8; 4,0 4,1", "&": "4,0 0,6 0,7 1,8 2,7 2,6 0,3 0,1 1,0 2,0 4,3",
    "'": "2,8 2,6", "(": "3,9 1,6 1,2 3,-1", ")": "1,9 3,6 3,2 1,-1", "*": "0,2 4,6; 0,6 4,2; 2,7 2,1",
    "+": "2,2 2,6; 0,4 4,4", ",": "2,1 2,0 1,-2", "-": "0,4 4,4", ".": "2,0 2,1", "/": "0,0 4,8",
    "0": ROUND + "; 1,2 3,6", "1": "1,6 2,8 2,0; 1,0 3,0", "2": "0,7 1,8 3,8 4,7 4,5 0,0 4,0",
    "3": "0,7 1,8 3,8 4,7 4,5 3,4 1,4; 3,4 4,3 4,1 3,0 1,0 0,1", "4": "3,0 3,8 0,3 4,3",
    "5": "4,8 0,8 0,5 3,5 4,4 4,1 3,0 0,0", "6": "4,7 3,8 1,8 0,7 0,1 1,0 3,0 4,1 4,3 3,4 0,4", "7": "0,8 4,8 1,0",
    "8": "1,4 0,5 0,7 1,8 3,8 4,7 4,5 3,4 1,4 0,3 0,1 1,0 3,0 4,1 4,3 3,4", "9": "0,1 1,0 3,0 4,1 4,7 3,8 1,8 0,7 0,5 1,4 4,4",
    ":": "2,0 2,1; 2,4 2,5", ";": "2,4 2,5; 2,1 2,0 1,-2", "<": "4,7 0,4 4,1", "=": "0,3 4,3; 0,5 4,5", ">": "0,7 4,4 0,1",
    "?": "0,7 1,8 3,8 4,7 4,5 2,3 2,2; 2,0 2,0", "@": "4,2 4,6 3,8 1,8 0,6 0,2 1,0 4,0; 4,2 2,2 2,5 4,5",
    "A": "0,0 0,6 2,8 4,6 4,0; 0,4 4,4", "B": BOWL + "; 3,4 4,3 4,1 3,0 0,0", "C": "4,7 3,8 1,8 0,7 0,1 1,0 3,0 4,1",
    "D": "0,0 0,8 2,8 4,6 4,2 2,0 0,0", "E": "4,0 0,0 0,8 4,8; 0,4 3,4", "F": "0,0 0,8 4,8; 0,4 3,4",
    "G": "4,7 3,8 1,8 0,7 0,1 1,0 3,0 4,1 4,4 2,4", "H": "0,0 0,8; 4,0 4,8; 0,4 4,4", "I": "1,0 3,0; 2,0 2,8; 1,8 3,8",
    "J": "0,1 1,0 2,0 3,1 3,8", "K": "0,0 0,8; 4,8 0,4 4,0", "L": "0,8 0,0 4,0", "M": "0,0 0,8 2,5 4,8 4,0",
    "N": "0,0 0,8 4,0 4,8", "O": ROUND, "P": BOWL, "Q": ROUND + "; 2,2 4,0", "R": BOWL + "; 2,4 4,0", "S": SNAKE,
    "T": "0,8 4,8; 2,8 2,0", "U": "0,8 0,1 1,0 3,0 4,1 4,8", "V": "0,8 0,4 2,0 4,4 4,8", "W": "0,8 0,0 2,3 4,0 4,8",
    "X": "0,0 4,8; 0,8 4,0", "Y": "0,8 2,4 4,8; 2,4 2,0", "Z": "0,8 4,8 0,0 4,0",
    "[": "3,9 1,9 1,-1 3,-1", "\\": "0,8 4,0", "]": "1,9 3,9 3,-1 1,-1", "^": "0,6 2,8 4,6", "_": "0,-2 4,-2", "`": "1,8 2,6",
    "a": "0,4 1,5 3,5 4,4 4,0; 4,3 1,3 0,2 0,1 1,0 3,0 4,1", "b": "0,8 0,0 3,0 4,1 4,4 3,5 0,5",
    "c": "4,4 3,5 1,5 0,4 0,1 1,0 3,0 4,1", "d": "4,8 4,0 1,0 0,1 0,4 1,5 4,5",
    "e": "0,3 4,3 4,4 3,5 1,5 0,4 0,1 1,0 4,0", "f": "4,8 3,8 2,7 2,0; 0,5 4,5",
    "g": "4,5 1,5 0,4 0,1 1,0 4,0; 4,5 4,-2 3,-3 0,-3", "h": "0,0 0,8; 0,5 3,5 4,4 4,0",
    "i": "2,7 2,7; 1,5 2,5 2,0; 1,0 3,0", "j": "3,7 3,7; 3,5 3,-2 2,-3 0,-3", "k": "0,0 0,8; 4,5 0,2; 1,3 4,0",
    "l": "1,8 2,8 2,0; 1,0 3,0", "m": "0,0 0,5 3,5 4,4 4,0; 2,5 2,1", "n": "0,0 0,5 3,5 4,4 4,0",
    "o": "1,0 0,1 0,4 1,5 3,5 4,4 4,1 3,0 1,0", "p": "0,-3 0,5 3,5 4,4 4,1 3,0 0,0", "q": "4,-3 4,5 1,5 0,4 0,1 1,0 4,0",
    "r": "0,0 0,5; 0,3 2,5 4,5", "s": "4,5 1,5 0,4 1,3 3,3 4,2 4,1 3,0 0,0", "t": "2,8 2,1 3,0 4,0; 0,5 4,5",
    "u": "0,5 0,1 1,0 4,0; 4,5 4,0", "v": "0,5 0,3 2,0 4,3 4,5", "w": "0,5 0,0 2,2 4,0 4,5", "x": "0,0 4,5; 0,5 4,0",
    "y": "0,5 0,1 1,0 4,0; 4,5 4,-2 3,-3 0,-3", "z": "0,5 4,5 0,0 4,0",
    "¡": "2,5 2,0; 2,8 2,8", "¿": "4,1 3,0 1,0 0,1 0,3 2,5; 2,8 2,8", "«": "2,5 0,3 2,1; 4,5 2,3 4,1", "»": "0,5 2,3 0,1; 2,5 4,3 2,1",
    "£": "0,0 4,0; 1,0 1,7 2,8 3,8 4,7; 0,4 3,4", "Æ": "0,0 0,4 2,8 4,8; 2,8 2,0 4,0; 0,4 4,4", "Ð": "0,0 0,8 2,8 4,6 4,2 2,0 0,0; 0,4 2,4",
    "Ø": ROUND + "; 0,0 4,8", "Þ": "0,8 0,0; 0,6 3,6 4,5 4,3 3,2 0,2", "ß": "0,0 0,7 1,8 3,8 4,7 3,5 4,3 4,1 3,0 2,0",
    "æ": "0,4 1,5 2,4 2,1 1,0 0,1 1,3 4,3 4,4 3,5 2,4; 2,1 3,0 4,0", "ð": "1,0 0,1 0,4 1,5 3,5 4,4 4,1 3,0 1,0; 4,5 2,8; 1,7 3,8",
    "ø": "1,0 0,1 0,4 1,5 3,5 4,4 4,1 3,0 1,0; 0,0 4,5", "þ": "0,8 0,-3; 0,5 3,5 4,4 4,1 3,0 0,0",
    "{": "3,9 2,8 2,5 1,4 2,3 2,0 3,-1", "|": "2,9 2,-2", "}": "1,9 2,8 2,5 3,4 2,3 2,0 1,-1", "~": "0,4 1,5 3,3 4,4",
}

# The marks above small letters; above capital letters they stand so many rows higher.
MARKS = {
    "\u0300": ("1,8 2,7", 2), "\u0301": ("2,7 3,8", 2), "\u0302": ("1,7 2,8 3,7", 2), "\u0303": ("0,7 1,8 3,7 4,8", 2),
    "\u0308": ("0,7 0,7; 4,7 4,7", 3), "\u030a": ("1,7 1,8 2,8 2,7 1,7", 2), "\u0327": ("2,-1 2,-2 1,-3", 0),
}


def higher(strokes, rows):
    """Strokes that many rows higher."""
    corners = [[corner.split(",") for corner in stroke.split()] for stroke in strokes.split(";")]
    return "; ".join(" ".join(f"{x},{int(y) + rows}" for x, y in stroke) for stroke in corners)


def marked_letters():
    """The letters of Latin-1 that are a letter and a mark."""
    for code in range(0xC0, 0x100):
        base, *mark = unicodedata.normalize("NFD", chr(code))
        if mark:
            strokes, rows = MARKS[mark[0]]
            plain = "1,5 2,5 2,0; 1,0 3,0" if base == "i" else STROKES[base]
            yield chr(code), plain + "; " + (higher(strokes, rows) if base.isupper() else strokes)


STROKES.update(list(marked_letters()))
ACROSS, UP = map(int, sys.argv[1:3]) if len(sys.argv) > 2 else (1, 1)
WIDTH, HEIGHT, BOTTOM = 8 * ACROSS, 14 * UP, -3 * UP


def ink(strokes):
    """The pixels of the strokes, as (column, row above the base line)."""
    points = set()
    for stroke in strokes.split(";"):
        corners = [tuple(int(n) for n in corner.split(",")) for corner in stroke.split()]
        corners = [(x * ACROSS, y * UP) for x, y in corners]
        for (x, y), (u, v) in zip(corners, corners[1:]):
            steps = max(abs(u - x), abs(v - y), 1)
            for k in range(steps + 1):
                points.add((x + round((u - x) * k / steps), y + round((v - y) * k / steps)))
    pen = [(x, y) for x in range(ACROSS + 1) for y in range(UP)]
    return {(x + dx, y + dy) for x, y in points for dx, dy in pen}


def row_of(pixels, y):
    """The hexadecimal digits of a row of pixels, rounded up to whole bytes."""
    size = (WIDTH + 7) // 8
    bits = sum(1 << (8 * size - 1 - (x + ACROSS)) for x, row in pixels if row == y and 0 <= x + ACROSS < WIDTH)
    return f"{bits:0{2 * size}X}"


print("STARTFONT 2.1")
print("COMMENT Drawn for Ledgeprune by draw_subtitle_font.py")
print(f"SIZE {HEIGHT} 75 75")
print(f"FONTBOUNDINGBOX {WIDTH} {HEIGHT} 0 {BOTTOM}")
print(f"STARTPROPERTIES 2\nFONT_ASCENT {HEIGHT + BOTTOM}\nFONT_DESCENT {-BOTTOM}\nENDPROPERTIES")
print(f"CHARS {len(STROKES)}")
for character in sorted(STROKES):
    print(f"STARTCHAR U+{ord(character):04X}\nENCODING {ord(character)}\nDWIDTH {WIDTH} 0\nBBX {WIDTH} {HEIGHT} 0 {BOTTOM}\nBITMAP")
    pixels = ink(STROKES[character])
    for y in range(HEIGHT + BOTTOM - 1, BOTTOM - 1, -1):
        print(row_of(pixels, y))
    print("ENDCHAR")
print("ENDFONT")
