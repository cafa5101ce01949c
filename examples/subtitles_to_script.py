#!/usr/bin/env python3
"""Turns a subtitle file into a script that `dvbsub compile` takes.

    python3 examples/subtitles_to_script.py IN OUT [OPTION...]

IN is a SubRip, WebVTT, EBU STL (Tech 3264), TTML or EBU-TT-D file, whatever its name. OUT is the script. What was
changed on the way is counted on standard output, with the command that compiles the script. With a BDF font (the usual
one is `examples/sans36.bdf`) Python's standard library is enough; a TrueType font has smooth letters and wants Pillow.
"""

import argparse
import os
import shutil
import subprocess
import sys
from fractions import Fraction

from subtitles import readers
from subtitles.bdf import BitmapFace, FontFault
from subtitles.convert import Unfit, Wishes, convert
from subtitles.report import Report
from subtitles.sending import PROFILES
from subtitles.truetype import SmoothFace
from subtitles.video import probed

HERE = os.path.dirname(os.path.abspath(__file__))
RATES = {"23.976": Fraction(24000, 1001), "24": Fraction(24), "25": Fraction(25), "29.97": Fraction(30000, 1001),
         "30": Fraction(30), "50": Fraction(50), "59.94": Fraction(60000, 1001), "60": Fraction(60)}
RANGES = {"refresh": (1, 60), "margin": (0, 25), "lines": (1, 12), "clear": (0, 254), "scale": (1, 32), "size": (8, 256),
          "first_pts": (0, (1 << 33) - 1)}
LINE = 0.07         # The height of a line, as a part of the display's.


def words():
    """What the command line may have."""
    parser = argparse.ArgumentParser(description=__doc__, formatter_class=argparse.RawDescriptionHelpFormatter)
    put = parser.add_argument
    put("input", metavar="IN")
    put("output", metavar="OUT")
    put("--profile", choices=sorted(PROFILES), default="sd", help="the receivers (sd)")
    put("--video", metavar="FILE", help="the video: its size, its rate and its first PTS, told by ffprobe")
    put("--display", metavar="WIDTHxHEIGHT", help="the size of the video, where it is not the profile's greatest")
    put("--rate", choices=RATES, help="frames a second, to which times are moved (those of the video, or 25)")
    put("--first-pts", type=int, metavar="TICK", help="its first PTS, in ticks of 90 kHz (that of the video, or 0)")
    put("--start", metavar="HH:MM:SS[:FF]", help="the time in IN of the first frame (that of IN's head, or 0)")
    put("--font", default=os.path.join(HERE, "sans36.bdf"), help="a BDF or TrueType font")
    put("--italic", metavar="FONT", help="the TrueType font of italic letters (the one beside the font)")
    put("--size", type=int, metavar="PIXELS", help="the height of a line of a TrueType font (7 %% of the display's)")
    put("--scale", type=int, metavar="N", help="how many times as large a BDF font is drawn (a line of up to 7 %%)")
    put("--style", choices=("box", "outline"), help="what stands behind the letters (box for BDF, outline for TrueType)")
    put("--clear", type=int, default=64, metavar="T", help="how far the box is seen through, 0 to 254 (64)")
    put("--wide", action="store_true", help="the display's pixels are those of 16:9 in 720 columns (TrueType alone)")
    put("--margin", type=int, default=5, metavar="PERCENT", help="what stays free at each edge of the display (5)")
    put("--lines", type=int, default=3, metavar="N", help="how many lines a place has at most (3)")
    put("--refresh", type=int, default=5, metavar="SECONDS", help="how often a page is sent again (5)")
    put("--speakers", action="store_true", help="a colour for each speaker of a WebVTT file")
    put("--encoding", help="of a file that is not Unicode, as cp1251 (cp1252; that of an STL file's head)")
    put("--report", metavar="FILE", help="a line for each change")
    put("--try", metavar="DVBSUB", dest="program", help="compiles the script by this program, to see that it is taken")
    return parser


def face_of(asked, height):
    """The face, as the options ask for it."""
    target = height * LINE
    with open(asked.font, "rb") as file:
        data = file.read()
    if not data.startswith(b"STARTFONT"):
        squeeze = 45 / 64 if asked.wide else 1
        return SmoothFace(asked.font, asked.size or round(target), asked.style or "outline", squeeze, asked.italic)
    lines = data.decode("latin-1").split("\n")
    face = BitmapFace(lines, asked.scale or 1, asked.style or "box")
    best = max(1, int(target * 1.1 // face.font.box[1]))
    return face if asked.scale or best == 1 else BitmapFace(lines, best, asked.style or "box")


def is_between(asked, name, least, most):
    number = getattr(asked, name)
    if number is not None and not least <= number <= most:
        raise ValueError(f"--{name.replace('_', '-')} is from {least} to {most}")


def numbers_in(words):
    """The numbers that some words are; none where one of them is no number."""
    return [int(word) for word in words] if all(word.isdecimal() for word in words) else []


def display_of(text):
    sides = numbers_in(text.lower().split("x"))
    if len(sides) != 2 or min(sides) < 64:
        raise ValueError(f"--display {text}: WIDTHxHEIGHT is wanted, each 64 or more")
    return tuple(sides)


def wishes_of(asked):
    """What the options and the video ask for; an option counts more."""
    for name, (least, most) in RANGES.items():
        is_between(asked, name, least, most)
    wishes = Wishes(asked.profile, refresh=asked.refresh, margin=asked.margin, most_lines=asked.lines, clear=asked.clear)
    if asked.video:
        video = probed(asked.video)
        wishes.offset, wishes.display = video.first_pts, (video.width, video.height)
        wishes.rate = min(RATES.values(), key=lambda rate: abs(rate - video.rate))
    if asked.display:
        wishes.display = display_of(asked.display)
    if asked.rate:
        wishes.rate = RATES[asked.rate]
    if asked.first_pts is not None:
        wishes.offset = asked.first_pts
    return wishes


def time_of(text, rate):
    """The seconds of a time code."""
    parts = numbers_in(text.split(":"))
    if len(parts) not in (3, 4):
        raise ValueError(f"--start {text}: HH:MM:SS or HH:MM:SS:FF is wanted")
    whole = (parts[0] * 60 + parts[1]) * 60 + parts[2]
    return Fraction(whole) + (Fraction(parts[3], round(rate)) if len(parts) == 4 else 0)


def names_of(output, count):
    """The names of the scripts: OUT, and beside it OUT-2 and so on."""
    stem, ending = os.path.splitext(output)
    return [output] + [f"{stem}-{number}{ending}" for number in range(2, count + 1)]


def written(output, texts):
    """Writes the scripts; answers their names."""
    names = names_of(output, len(texts))
    for path, text in zip(names, texts):
        with open(path, "w", encoding="utf-8", newline="") as file:
            file.write(text)
    return names


def tell(asked, wishes, name, cues, texts, names, report):
    rate = f"{float(wishes.rate):.5g} frames a second"
    print(f"{len(cues)} cues read ({name}); the video's first PTS is {wishes.offset}, {rate}")
    for line in report.lines():
        print(line)
    for name, text in zip(names, texts):
        font = asked.font if "\ncue," in text else "none"
        stream = os.path.splitext(name)[0] + ".sub.ts"
        print(f"{name}: {text.count(chr(10))} records. dvbsub compile {asked.profile} 256 1 {name} {font} {stream}")
    if asked.report:
        with open(asked.report, "w", encoding="utf-8") as file:
            file.writelines(line + "\n" for line in report.details())


def tried(asked, names, texts):
    """Compiles each script; answers whether all are taken."""
    program, is_taken = shutil.which(asked.program) or asked.program, True
    for name, text in zip(names, texts):
        font = asked.font if "\ncue," in text else "none"
        run = [program, "compile", asked.profile, "256", "1", name, font, os.devnull]
        ended = subprocess.run(run, stdout=subprocess.PIPE, text=True, check=False)
        print(f"{name}: {ended.stdout.strip()}")
        is_taken = is_taken and ended.returncode == 0
    return is_taken


def main():
    asked, report = words().parse_args(), Report()
    try:
        with open(asked.input, "rb") as file:
            data = file.read()
        options = {"speakers": asked.speakers}
        cues, name, begin = readers.read(data, report, asked.encoding, options)
        wishes = wishes_of(asked)
        wishes.start = time_of(asked.start, wishes.rate) if asked.start else begin
        face = face_of(asked, wishes.size()[1])
        wishes.style = face.style
        texts, report = convert(cues, face, wishes, report)
        names = written(asked.output, texts)
        tell(asked, wishes, name, cues, texts, names, report)
        is_taken = not asked.program or tried(asked, names, texts)
    except (OSError, ValueError, LookupError, readers.FormatFault, FontFault, Unfit) as fault:
        sys.exit(f"{os.path.basename(sys.argv[0])}: {fault}")
    if not is_taken:
        sys.exit(1)


if __name__ == "__main__":
    main()
