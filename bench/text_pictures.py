"""Writes scripts whose pictures are lines of smoothed text, 720 by 80 pixels, for bench/text_pictures.sh.

    python3 bench/text_pictures.py FONT DEPTH PICTURES SETS [runs] > script.csv
    python3 bench/text_pictures.py FONT DEPTH PICTURES noise > script.csv

Text of the BDF font is drawn three times as large and smoothed: each pixel is the mean of the nine about it, by so many
levels as the depth has codes. SETS cues, half a second apart, show the PICTURES in turn. With `noise` each pixel of a
picture differs from the one before it. With `runs` the codes are written as runs, and else as digits.
"""
import itertools
import random
import sys

WIDTH, HEIGHT, SCALE = 720, 80, 3
WORDS = "the of and to in is that it was for on are with as his they at be this from have or by one had not but what".split()


def glyphs(path):
    """The rows of each character's box, from the top, as lists of 0 and 1."""
    found, code, rows = {}, 0, None
    for line in open(path):
        cells = line.split()
        if cells[0] == "ENCODING":
            code = int(cells[1])
        elif cells[0] == "BBX":
            width = int(cells[1])
        elif cells[0] == "BITMAP":
            rows = []
        elif cells[0] == "ENDCHAR":
            found[chr(code)], rows = rows, None
        elif rows is not None:
            bits = bin(int(cells[0], 16))[2:].zfill(4 * len(cells[0]))
            rows.append([int(bit) for bit in bits[:width]])
    return found


def text(chance, letters):
    line = ""
    while len(line) < letters - 6:
        line += chance.choice(WORDS) + " "
    return line.strip()[:letters].capitalize()


def drawn(font, chance, levels):
    """Codes by rows: one or two lines of text, each centred."""
    grid = [[0] * WIDTH for _ in range(HEIGHT)]
    for top in chance.choice(((HEIGHT // 2,), (0, HEIGHT // 2))):
        line = text(chance, chance.randint(14, WIDTH // (8 * SCALE) - 2))
        left = (WIDTH - 8 * SCALE * len(line)) // 2
        for place, character in enumerate(line):
            for y, row in enumerate(font[character]):
                for x, bit in enumerate(row):
                    if bit:
                        for down in range(SCALE):
                            for across in range(SCALE):
                                if top + SCALE * y + down < HEIGHT:
                                    grid[top + SCALE * y + down][left + 8 * SCALE * place + SCALE * x + across] = 1
    codes = []
    for y in range(HEIGHT):
        about = grid[max(y - 1, 0):y + 2]
        column = [sum(row[x] for row in about) for x in range(WIDTH)]
        for x in range(WIDTH):
            codes.append(sum(column[max(x - 1, 0):x + 2]) * (levels - 1) // 9)
    return codes


def noise(chance, levels):
    codes, last = [], 0
    for _ in range(WIDTH * HEIGHT):
        last = (last + chance.randint(1, levels - 1)) % levels
        codes.append(last)
    return codes


def written(codes, form, runs):
    if runs:
        return " ".join(f"{len(list(run))}*{form % code}" for code, run in itertools.groupby(codes))
    return "".join(form % code for code in codes)


def main():
    path, depth, pictures, sets = sys.argv[1], int(sys.argv[2]), int(sys.argv[3]), sys.argv[4]
    font, chance, levels = glyphs(path), random.Random(7), 2 ** depth
    form = "%02X" if depth == 8 else "%X"
    print("origin,0\ndisplay,720,576\nrefresh,5")
    for number in range(pictures):
        codes = noise(chance, levels) if sets == "noise" else drawn(font, chance, levels)
        print(f"picture,p{number},{depth},{WIDTH},{HEIGHT},{written(codes, form, sys.argv[5:] == ['runs'])}")
    print(f"epoch,900000\nregion,0,0,480,{WIDTH},{HEIGHT},{depth},0")
    for number in range(pictures if sets == "noise" else int(sets)):
        start = 900_000 + 45_000 * number
        print(f"place,{start},{start + 45_000},0,0,0,solid,p{number % pictures}")


main()
