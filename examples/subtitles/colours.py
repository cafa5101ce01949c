"""Colours: names and numbers of subtitle files, Y, Cr and Cb of a CLUT, and the entries of a region."""

import re
from dataclasses import dataclass

NAMES = {
    "white": (255, 255, 255), "black": (0, 0, 0), "red": (255, 0, 0), "green": (0, 128, 0), "lime": (0, 255, 0),
    "blue": (0, 0, 255), "yellow": (255, 255, 0), "magenta": (255, 0, 255), "fuchsia": (255, 0, 255),
    "cyan": (0, 255, 255), "aqua": (0, 255, 255), "silver": (192, 192, 192), "gray": (128, 128, 128),
    "grey": (128, 128, 128), "maroon": (128, 0, 0), "olive": (128, 128, 0), "purple": (128, 0, 128),
    "navy": (0, 0, 128), "teal": (0, 128, 128), "orange": (255, 165, 0), "pink": (255, 192, 203),
}
TELETEXT = [NAMES[name] for name in ("black", "red", "lime", "yellow", "blue", "magenta", "cyan", "white")]
CLEAR = (16, 128, 128, 255)
BLACK = (0, 0, 0)


def colour_of(text):
    """The colour that a word of a subtitle file names, or None."""
    text = text.strip().strip("\"'").lower()
    if text in NAMES:
        return NAMES[text]
    digits = text[1:] if text.startswith("#") else text
    if re.fullmatch("[0-9a-f]{6}([0-9a-f]{2})?", digits):
        return tuple(bytes.fromhex(digits[:6]))
    if re.fullmatch("[0-9a-f]{3}", digits) and text.startswith("#"):
        return tuple(17 * int(digit, 16) for digit in digits)
    numbers = re.fullmatch(r"rgba?\(\s*(\d+)\s*,\s*(\d+)\s*,\s*(\d+)\s*(?:,[^)]*)?\)", text)
    return tuple(min(255, int(number)) for number in numbers.groups()) if numbers else None


def entry_of(colour, clear=0):
    """Y, Cr and Cb by ITU-R BT.601, and the transparency, as a `colour` record has them."""
    red, green, blue = (part / 255 for part in colour)
    luma = 0.299 * red + 0.587 * green + 0.114 * blue
    red, blue = 0.713 * (red - luma), 0.564 * (blue - luma)
    return round(16 + 219 * luma), round(128 + 224 * red), round(128 + 224 * blue), clear


def mixed(below, above, part):
    """A colour between two."""
    return tuple(round(low + (high - low) * part) for low, high in zip(below, above))


def nearest(colour, others):
    return min(others, key=lambda other: sum((a - b) ** 2 for a, b in zip(colour, other)))


@dataclass
class Palette:
    """The entries of the CLUT: code 0 is clear, some codes are the box or the outline, the rest letters in ramps.

    `ramps` has for each colour its codes from the faintest to the full one, `edge` those of the outline likewise.
    """

    depth: int
    entries: list
    ramps: dict
    edge: list
    box: int = 0

    def known(self, colour):
        return colour if colour in self.ramps else nearest(colour, self.ramps)


def kept_colours(counts, most):
    """The colours of the letters that have entries: as many as there is room for, those of the most letters first."""
    ranked = sorted(counts, key=lambda colour: (-counts[colour], colour))
    return ranked[:most]


def flat_palette(counts, style, clear):
    """One code a colour, for letters without grey: 2 bits where they suffice, else 4."""
    colours = kept_colours(counts, 14)
    depth = 2 if len(colours) <= 2 else 4
    ground = entry_of(BLACK, clear if style == "box" else 0)
    entries = [CLEAR, ground] + [entry_of(colour) for colour in colours]
    ramps = {colour: [2 + number] for number, colour in enumerate(colours)}
    return Palette(depth, entries, ramps, [1], 1 if style == "box" else 0)


def smooth_palette(counts, style, clear):
    """Ramps of 4 bits for letters with grey edges: on a box from the box to the colour, else over an outline."""
    colours = kept_colours(counts, 4)
    entries = [CLEAR]
    if style == "box":
        entries.append(entry_of(BLACK, clear))
        edge, first = [], 2
    else:
        steps = {1: 4, 2: 3, 3: 3, 4: 3}[len(colours)]
        entries += [entry_of(BLACK, 255 - 255 * (step + 1) // (steps + 1)) for step in range(steps)]
        edge, first = list(range(1, 1 + steps)), 1 + steps
        entries.append(entry_of(BLACK))
        edge.append(first)
        first += 1
    levels = (16 - first) // len(colours)
    ramps = {}
    for colour in colours:
        ramps[colour] = list(range(len(entries), len(entries) + levels))
        for level in range(1, levels + 1):
            part = level / levels
            entries.append(entry_of(mixed(BLACK, colour, part), round(clear * (1 - part)) if style == "box" else 0))
    return Palette(4, entries, ramps, edge, 1 if style == "box" else 0)
