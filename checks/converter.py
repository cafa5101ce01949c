#!/usr/bin/env python3
"""Converts generated subtitle files of each format, and has the compiler take the scripts.

    python3 checks/converter.py [WORD...]

Each case is a file of 1,000 cues (or fewer where the case says so): plausible cues, dense ones, long lines, letters
of many languages, overlaps, odd marks. It is converted by examples/subtitles_to_script.py, and the script is tested

1. by the converter's own copy of the compiler's rules (examples/subtitles/rules.py);
2. by `dvbsub compile`, in the case's profile: it is taken at once, and `check` tells of each set the bytes and the
   tick that those rules reckon;
3. by `dump` against `expect`, at each tick that the script names;
4. by libavcodec, where it is installed: it shows each set's picture as `dump`, pixel for pixel.

Where `dvbsub` was not made yet, the first alone is tested (DVBSUB names another program); where it is older than its
sources, it is made anew. With words, those cases are taken whose names have one of them. Smooth letters want Pillow and
a font of Debian's fonts-dejavu-core.
"""

import functools
import os
import random
import re
import struct
import subprocess
import sys
import tempfile
import time

TOP = os.path.dirname(os.path.dirname(os.path.abspath(__file__)))
sys.path[:0] = [os.path.join(TOP, "examples"), os.path.join(TOP, "checks")]

import made_programs  # noqa: E402
import players  # noqa: E402
from subtitle_files import FORMATS, KINDS  # noqa: E402
from subtitles import rules  # noqa: E402
from subtitles.bdf import Font  # noqa: E402

EXAMPLES = os.path.join(TOP, "examples")
MADE = os.path.join(TOP, "crates", "dvbsub", "out", "dvbsub")
SMOOTH = "/usr/share/fonts/truetype/dejavu/DejaVuSans.ttf"
PID, PAGE, MOST_TICKS = 256, 1, 500
# Each case: kind of cues, format, profile, font, and further options of the converter.
CASES = [("film", form, profile, "sans36.bdf", []) for form in FORMATS for profile in ("sd", "hd", "large")]
CASES += [(kind, form, profile, "sans24.bdf", []) for kind in ("dense", "letters", "overlaps", "odd") for form in FORMATS
          for profile in ("sd", "hd")]
CASES += [("long", form, "sd", "sans24.bdf", []) for form in FORMATS]
CASES += [("long", "vtt", "hd", "sans24.bdf", []), ("greek", "stl", "sd", "sans24.bdf", []), ("greek", "stl", "hd", "sans24.bdf", [])]
CASES += [(kind, form, "large", "sans24.bdf", []) for kind, form in (("dense", "ttml"), ("letters", "vtt"))]
CASES += [
    ("film", "srt", "sd", "television.bdf", ["--style", "outline", "--rate", "29.97"]),
    ("film", "vtt", "sd", "sans36.bdf", ["--display", "720x480", "--rate", "23.976", "--refresh", "1", "--speakers"]),
    ("film", "srt", "hd", "sans24.bdf", ["--display", "1280x720", "--rate", "50", "--first-pts", "8589000000"]),
    ("dense", "vtt", "sd", "sans36.bdf", ["--first-pts", "0", "--style", "outline", "--lines", "2"]),
    ("long", "srt", "sd", "television.bdf", ["--lines", "1"]),
    ("film", "srt", "sd", SMOOTH, []), ("film", "stl", "hd", SMOOTH, ["--style", "box"]), ("dense", "ttml", "sd", SMOOTH, []),
    ("letters", "srt", "hd", SMOOTH, ["--refresh", "1"]), ("long", "srt", "sd", SMOOTH, ["--wide", "--rate", "25"]),
]


def run(*words):
    return subprocess.run([str(word) for word in words], stdout=subprocess.PIPE, stderr=subprocess.PIPE, text=True, check=False)


@functools.cache
def program():
    """The program that is tested, or None where it was not made yet."""
    return os.environ.get("DVBSUB") or (made_programs.path_of("dvbsub") if os.path.exists(MADE) else None)


def python_with_pillow():
    """A Python that has Pillow: this one, or the system's."""
    for python in (sys.executable, "/usr/bin/python3"):
        if os.path.exists(python) and run(python, "-c", "import PIL").returncode == 0:
            return python
    return None


def ticks_of(script):
    """The ticks that a script names."""
    ticks = set()
    for line in script.splitlines():
        if line.startswith(("cue,", "place,")):
            ticks.update(map(int, line.split(",")[1:3]))
        elif line.startswith("colour,"):
            ticks.add(int(line.split(",")[1]))
    return sorted(ticks)


def sets_in(path):
    """The sets that libavcodec shows, one after the other: times, and rectangles with their places and pixels."""
    def numbers(file, count):
        return struct.unpack(f"<{count}q", file.read(8 * count))
    with open(path, "rb") as file:
        for _ in iter(lambda: file.peek(1), b""):
            pts, count = numbers(file, 2)
            rectangles = []
            for _ in range(count):
                x, y, width, height = numbers(file, 4)
                rectangles.append((x, y, width, height, file.read(4 * width * height)))
            yield pts % players.ROUND, rectangles


def rows_of(rectangles, width):
    """The rows of the display on which libavcodec shows something, as pixels of four bytes."""
    rows = {}
    for x, y, across, tall, pixels in rectangles:
        for row in range(tall):
            whole = rows.setdefault(y + row, bytearray(4 * width))
            whole[4 * x:4 * (x + across)] = pixels[4 * across * row:4 * across * (row + 1)]
    return rows


class Pictures:
    """The pictures of `dump`, as rows of pixels of four bytes."""

    def __init__(self):
        self.colours, self.known = {}, {}

    def pixels(self, text):
        """A row, kept where it is of one colour, as most are."""
        if text in self.known:
            return self.known[text]
        row = []
        for piece in text.split():
            length, _, colour = piece.partition("*")
            if colour not in self.colours:
                self.colours[colour] = bytes(players.rgba(tuple(bytes.fromhex(colour))))
            row.append(self.colours[colour] * int(length))
        if len(row) == 1:
            self.known[text] = row[0]
        return b"".join(row)

    def read(self, path):
        """Each tick with its rows, or with None where all is clear."""
        with open(path) as lines:
            for line in lines:
                words = line.split()
                rows = None if words[2] == "clear" else [self.pixels(next(lines)) for _ in range(int(words[3]))]
                yield int(words[1]), rows


def is_shown(rows, rectangles):
    """libavcodec shows the picture, and nothing else."""
    if rows is None:
        return not any(any(pixels[3::4]) for *_, pixels in rectangles)
    shown, clear = rows_of(rectangles, len(rows[0]) // 4), bytes(len(rows[0]))
    return all(shown.get(y, clear) == row for y, row in enumerate(rows))


class Case:
    """One file, in a folder of its own."""

    def __init__(self, folder, kind, form, profile, font, options):
        self.folder, self.profile, self.font, self.options, self.faults = folder, profile, font, options, []
        self.input, self.script = self.at("in." + form), self.at("script.csv")
        cues = KINDS[kind](random.Random(kind + form))
        with open(self.input, "wb") as file:
            file.write(FORMATS[form](cues, kind))

    def at(self, name):
        return os.path.join(self.folder, name)

    def fault(self, text):
        self.faults.append(text)

    def done(self, *words):
        """Runs the program; a line other than `done` is a fault."""
        line = run(program(), *words).stdout.strip()
        if line != "done":
            self.fault(f"{words[0]}: {line}")
        return line == "done"

    def convert(self, python):
        words = [python, os.path.join(EXAMPLES, "subtitles_to_script.py"), self.input, self.script, "--profile", self.profile,
                 "--font", os.path.join(EXAMPLES, self.font), *self.options]
        ended = run(*words)
        if ended.returncode or ended.stderr:
            self.fault(f"the converter ends with {ended.returncode}: {ended.stderr.strip()[-300:]}")
            return []
        self.told = ended.stdout
        scripts = re.findall(r"^(\S+): \d+ records\. dvbsub compile \S+ \d+ \d+ \S+ (\S+) ", ended.stdout, re.M)
        if not scripts:
            self.fault("the converter names no script")
        return scripts

    def test(self, script, font, reader):
        """Tests one script; answers how many sets it has, and how many of them libavcodec was asked for."""
        with open(script, encoding="utf-8", newline="") as file:
            text = file.read()
        letters = None
        if font != "none":
            with open(font, encoding="latin-1") as file:
                letters = Font(file.read().split("\n"))
        try:
            planned = rules.planned(rules.Reader(letters).read(text), rules.PROFILES[self.profile])
        except rules.Refusal as line:
            self.fault(f"refused by the rules: {line}")
            return 0, 0
        if not program():
            return len(planned), 0
        stream = self.at("out.ts")
        if not self.done("compile", self.profile, PID, PAGE, script, font, stream):
            return len(planned), 0
        self.levels(text, stream, planned)
        shown = self.libavcodec(stream, reader) if reader else iter(())
        self.pictures(script, font, stream, sorted({*ticks_of(text), *(tick for tick, *_ in planned)}), shown)
        return len(planned), len(planned) if reader else 0

    def levels(self, text, stream, planned):
        """`check` tells what the rules reckon."""
        origin = int(text.split("\n", 1)[0].split(",")[1])
        self.done("check", self.profile, origin % (1 << 33), PID, PAGE, stream, self.at("check.txt"))
        told = []
        with open(self.at("check.txt")) as file:
            for line in file:
                words = line.split()
                if words[0] == "set":
                    told.append((int(words[1]), int(words[3]), int(words[4])))
                    if words[2] != "shown":
                        self.fault(line.strip())
                elif words[0] == "breach" and words[1] != "none":
                    self.fault(line.strip())
        if told != planned:
            self.fault(f"{len(told)} sets, {len(planned)} reckoned, first other: "
                       f"{next((pair for pair in zip(told, planned) if pair[0] != pair[1]), None)}")

    def pictures(self, script, font, stream, ticks, shown):
        """`dump` has the text of `expect` at all ticks, and libavcodec shows the same."""
        pictures, wrong, current, coming = Pictures(), 0, [], next(shown, None)
        is_asked = coming is not None
        for at in range(0, len(ticks), MOST_TICKS):
            asked = ticks[at:at + MOST_TICKS]
            self.done("expect", script, font, self.at("expect.txt"), *asked)
            self.done("dump", self.profile, PID, PAGE, 1, stream, self.at("dump.txt"), *asked)
            with open(self.at("expect.txt"), "rb") as wanted, open(self.at("dump.txt"), "rb") as got:
                if wanted.read() != got.read():
                    self.fault(f"dump is not expect between the ticks {asked[0]} and {asked[-1]}")
            for tick, rows in pictures.read(self.at("dump.txt")) if is_asked else ():
                if coming and coming[0] == tick % players.ROUND:
                    current, coming = coming[1], next(shown, None)
                wrong += not is_shown(rows, current)
        if wrong:
            self.fault(f"libavcodec shows {wrong} pictures otherwise")

    def libavcodec(self, stream, reader):
        """The sets that libavcodec shows, by their times."""
        with open(stream, "rb") as file, open(self.at("wrapped.ts"), "wb") as out:
            out.write(players.with_tables(file.read(), PAGE, PAGE))
        subprocess.run([reader, self.at("wrapped.ts"), self.at("sets")], check=True, stderr=subprocess.DEVNULL)
        return sets_in(self.at("sets"))


def reader_in(folder):
    """The program that asks libavcodec, or None."""
    reader = os.path.join(folder, "reader")
    made = subprocess.run(["cc", "-O2", "-o", reader, os.path.join(TOP, "checks", "libavcodec_pictures.c"), "-lavformat",
                           "-lavcodec", "-lavutil"], stderr=subprocess.DEVNULL, check=False)
    return reader if made.returncode == 0 else None


def main(words):
    pillow, bad, asked, counts = python_with_pillow(), 0, 0, [0, 0]
    with tempfile.TemporaryDirectory() as top:
        reader = reader_in(top)
        good = "taken, and shown as asked" if program() else "taken by the rules"
        if not program():
            print("dvbsub is not made: by the rules alone")
        elif not reader:
            print("libavcodec's headers are not installed: not compared with it")
        for number, (kind, form, profile, font, options) in enumerate(CASES):
            name = " ".join([kind, form, profile, os.path.basename(font), *options])
            if words and not any(word in name for word in words):
                continue
            if font == SMOOTH and not (pillow and os.path.exists(SMOOTH)):
                print(f"{name}: not run, Pillow or {SMOOTH} is not installed")
                continue
            folder, begun = os.path.join(top, str(number)), time.time()
            os.mkdir(folder)
            case, sets = Case(folder, kind, form, profile, font, options), [0, 0]
            for script, its_font in case.convert(pillow if font == SMOOTH else sys.executable):
                sets = [a + b for a, b in zip(sets, case.test(script, its_font, reader))]
            if kind == "film" and "TEXTS LEFT OUT" in getattr(case, "told", ""):
                case.fault("texts are left out")
            asked, bad, counts = asked + 1, bad + bool(case.faults), [a + b for a, b in zip(counts, sets)]
            print(f"{name}: {sets[0]} sets, {sets[1]} by libavcodec, {time.time() - begun:.0f} s: "
                  f"{'; '.join(case.faults) or good}", flush=True)
            subprocess.run(["rm", "-rf", folder], check=True)
    print(f"{asked} files, {counts[0]} sets, {counts[1]} of them by libavcodec, {bad} files wrong")
    return 1 if bad or not asked else 0


if __name__ == "__main__":
    sys.exit(main(sys.argv[1:]))
