#!/usr/bin/env python3
"""Asks `dvbsub_tools` what is wrong with streams of other encoders, and compares that with what is known to be wrong with these.

    python3 checks/foreign_streams.py [FOLDER]

GStreamer's encoder (dvbsubenc) draws cues in four sizes with 4 to 256 colours; libavcodec's takes what GStreamer or `compile` made and
encodes it again, or copies it. Who asks knows neither PID nor page, so that both are taken from `pids`. Then `faults` says of each
stream how many sets are broken and why, and which regions lie outside the display. Known are:

- GStreamer counts a byte of stuffing to the bottom field of some objects (`UnknownType`), and says a display one pixel too large each
  way, which at 1920 by 1080 passes every profile (`DisplayTooLarge`). With these two mended in the bytes, nothing is wrong with strings
  of 4 and 8 bits. At 2 bits there are bytes 00 too many within lines as well.
- libavcodec ends a line of 8 bits by one byte 00 in the place of two (`CutString`); nothing is wrong with its 2 and 4 bits. Its program
  loses the definition of the display, so that regions of larger pictures lie outside the one of 720 by 576.

The streams stay in FOLDER, where one is named. Where the encoders are not installed nothing is compared, and the last line says so.
"""

import collections
import os
import re
import shutil
import struct
import subprocess
import sys
import tempfile

TOP = os.path.dirname(os.path.dirname(os.path.abspath(__file__)))
PROGRAM = os.environ.get("DVBSUB", os.path.join(TOP, "dvbsub"))
TOOLS = os.environ.get("DVBSUB_TOOLS", os.path.join(TOP, "dvbsub_tools"))
SIZES = ((720, 576), (720, 480), (1280, 720), (1920, 1080))
CUES = ("I never said that.", "Where were you at noon?", "He took the last train\nto Köln.", "Nobody leaves this house tonight.",
        "- Yes.\n- No!", "Wait. Did you hear something?", "Two hundred and forty-seven euros!", "We have to talk about Łukasz.")


def quiet(words):
    """Whether a command ends well."""
    return subprocess.run(words, stdout=subprocess.DEVNULL, stderr=subprocess.DEVNULL, timeout=120).returncode == 0


def write_cues(path):
    def stamp(seconds):
        return "00:00:%02d,000" % seconds
    with open(path, "w", encoding="utf-8") as file:
        for number, text in enumerate(CUES, 1):
            file.write("%d\n%s --> %s\n%s\n\n" % (number, stamp(3 * number), stamp(3 * number + 2), text))


def by_gstreamer(cues, size, colours, out):
    caps = "video/x-raw,format=AYUV,width=%d,height=%d" % size
    return quiet(["gst-launch-1.0", "-q", "filesrc", "location=" + cues, "!", "subparse", "!", "textrender", "!", caps, "!", "dvbsubenc",
                  "max-colours=%d" % colours, "!", "mpegtsmux", "!", "filesink", "location=" + out])


def by_ffmpeg(stream, how, out):
    return quiet(["ffmpeg", "-y", "-i", stream, *how, "-f", "mpegts", out])


# ---- what the tools tell

def told(words, out):
    subprocess.run([TOOLS, *words, out], check=True, stdout=subprocess.DEVNULL)
    with open(out) as file:
        return file.read()


def pages_of(stream, out):
    """The PIDs and pages with display sets, by `pids`."""
    found, pid = [], None
    for line in told(["pids", stream], out).splitlines():
        words = line.split()
        if words[0] == "pid":
            pid = words[1]
        elif words[0] == "page" and words[3] != "0":
            found.append((pid, words[1]))
    return found


def faults_of(stream, out):
    """Of all pages of a stream: how many sets there are, and how many are broken by which fault, or shown and outside the display."""
    sets, named = 0, collections.Counter()
    for pid, page in pages_of(stream, out):
        text = told(["faults", "large", pid, page, stream], out)
        sets += int(re.search(r"^sets (\d+) ", text, re.M)[1])
        for end in re.findall(r"^set \d+ \d+ broken (.*)$", text, re.M):
            words = end.split()
            named[words[1] if words[0] == "Segment" else words[0]] += 1
        named["outside"] += len(re.findall(r"^outside ", text, re.M))
    return sets, +named


def listed_faults(stream, out):
    """How many segments of a stream are faulty by `list`."""
    count = 0
    for pid in {pid for pid, _ in pages_of(stream, out)}:
        subprocess.run([PROGRAM, "list", pid, stream, out], check=True, stdout=subprocess.DEVNULL)
        with open(out) as file:
            count += len(re.findall(r"\b(?:UnknownType|CutString|TooDeep|CutTable)\b", file.read()))
    return count


# ---- GStreamer's two errors, mended

def payloads_of(data):
    """The PES packets of a stream by their PIDs: for each the places of its bytes in the stream."""
    units = collections.defaultdict(list)
    for start in range(0, len(data), 188):
        head, control = struct.unpack_from(">HB", data, start + 1)
        pid, place = head & 0x1FFF, start + 4
        if control & 0x20:
            place += 1 + data[start + 4]
        if not control & 0x10:
            continue
        if head & 0x4000:
            units[pid].append([])
        if units[pid]:
            units[pid][-1] += range(place, start + 188)
    return [unit for pid in units for unit in units[pid]]


def mended(data):
    """A stream whose displays are one pixel smaller each way, and whose objects' bottom fields end before a byte of stuffing."""
    data = bytearray(data)

    def number(unit, place):
        return data[unit[place]] << 8 | data[unit[place + 1]]

    def put(unit, place, value):
        data[unit[place]], data[unit[place + 1]] = value >> 8, value & 255
    for unit in payloads_of(data):
        if len(unit) < 12 or bytes(data[place] for place in unit[:4]) != b"\0\0\1\xbd":
            continue
        place = 9 + data[unit[8]] + 2
        while place + 6 <= len(unit) and data[unit[place]] == 0x0F:
            kind, body = data[unit[place + 1]], place + 6
            length = number(unit, place + 4)
            if kind == 0x14:
                put(unit, body + 1, number(unit, body + 1) - 1)
                put(unit, body + 3, number(unit, body + 3) - 1)
            if kind == 0x13:
                top, bottom = number(unit, body + 3), number(unit, body + 5)
                # A field ends by an end of line (F0); what stands behind it is stuffing.
                if bottom and 7 + top + bottom == length and data[unit[body + length - 1]] == 0:
                    put(unit, body + 5, bottom - 1)
            place = body + length
    return bytes(data)


# ---- what is known

def expected(kind, colours, size):
    """The faults that some sets of a stream may have, and those that have to be named."""
    if kind == "GStreamer":
        return {"UnknownType", "DisplayTooLarge"}, {"DisplayTooLarge"} if size == (1920, 1080) else {"UnknownType"}
    if kind == "mended":
        return ({"UnknownType"}, {"UnknownType"}) if colours == 4 else (set(), set())
    if kind == "libavcodec":
        outside = {"outside"} if size[1] > 576 else set()
        return ({"CutString"} | outside, {"CutString"}) if colours > 16 else (outside, outside)
    return set(), set()


def report(name, stream, out, kind, colours, size):
    sets, named = faults_of(stream, out)
    may, has = expected(kind, colours, size)
    broken = sum(count for fault, count in named.items() if fault not in ("outside", "DisplayTooLarge"))
    is_right = sets > 0 and set(named) <= may and has <= set(named) and broken <= listed_faults(stream, out)
    print("%-34s %3d sets  %s%s" % (name, sets, " ".join("%s %d" % pair for pair in sorted(named.items())) or "nothing", "" if is_right else "  OTHERWISE"))
    return not is_right


def main():
    if not all(map(shutil.which, ("gst-launch-1.0", "ffmpeg"))):
        print("GStreamer and FFmpeg are not installed: not compared")
        return 0
    with tempfile.TemporaryDirectory() as temporary:
        folder = sys.argv[1] if len(sys.argv) > 1 else temporary
        cues, out = os.path.join(folder, "cues.srt"), os.path.join(temporary, "out.txt")
        write_cues(cues)
        bad = count = 0

        def check(name, kind, colours, size, make):
            nonlocal bad, count
            stream = os.path.join(folder, name.replace(" ", "_") + ".ts")
            if not make(stream):
                print("%-34s not made" % name)
                bad += 1
                return None
            bad += report(name, stream, out, kind, colours, size)
            count += 1
            return stream

        for size in SIZES:
            for colours in (4, 10, 16, 32, 256):
                name = "%dx%d %d colours" % (*size, colours)
                drawn = check("GStreamer " + name, "GStreamer", colours, size, lambda path: by_gstreamer(cues, size, colours, path))
                if not drawn:
                    continue

                def mend(path):
                    with open(drawn, "rb") as source, open(path, "wb") as sink:
                        sink.write(mended(source.read()))
                    return True
                whole = check("mended " + name, "mended", colours, size, mend)
                check("libavcodec " + name, "libavcodec", colours, size, lambda path: by_ffmpeg(whole, ["-c:s", "dvbsub"], path))
        own = os.path.join(folder, "own.ts")
        script, font = (os.path.join(TOP, "examples", name) for name in ("subtitle.csv", "television.bdf"))
        if not quiet([PROGRAM, "compile", "sd", "256", "1", script, font, own]):
            sys.exit(f"{script} is not compiled")
        import players
        with open(own, "rb") as file:
            stream = players.with_tables(file.read(), 1, 1)
        with open(own, "wb") as file:
            file.write(stream)
        check("own, copied by ffmpeg", "own", 16, (720, 576), lambda path: by_ffmpeg(own, ["-map", "0:s", "-c", "copy"], path))
        check("own, two languages", "own", 16, (720, 576), lambda path: by_ffmpeg(own, ["-map", "0:s", "-map", "0:s", "-c", "copy"], path))
        check("own, by libavcodec", "libavcodec", 16, (720, 576), lambda path: by_ffmpeg(own, ["-c:s", "dvbsub"], path))
        print("%d streams, %d otherwise than known" % (count, bad))
    return 1 if bad else 0


if __name__ == "__main__":
    sys.exit(main())
