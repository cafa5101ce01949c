#!/usr/bin/env python3
"""Compares what a receiver shows of compiled scripts with what libavcodec shows, which most players are made with.

    python3 checks/players.py [PROFILE SCRIPT FONT]...

Without words it takes the scripts of `examples`. Each script is compiled and put behind tables (PAT and PMT) by which players
find the subtitles; then each display set's picture by `dump` is compared, pixel for pixel, with libavcodec's, in colours as
libavcodec turns them (2 of 255 apart at the most, since entries that nothing sets come from its own table). A set is left out
whose fault is libavcodec's own and known: a line of 8 bit codes that ends at the right edge of its region, or code 1 let through.
Without words scripts that are made here are sent in pairs by `dvbsub_tools pair` too, each page behind tables that name it and the
ancillary page, and compared with `pairdump`. Where libavcodec's headers are not installed nothing is compared, and the last line says so.
"""
import os
import random
import re
import struct
import subprocess
import sys
import tempfile

import paired_streams

TOP = os.path.dirname(os.path.dirname(os.path.abspath(__file__)))
PROGRAM = os.environ.get("DVBSUB", os.path.join(TOP, "dvbsub"))
TOOLS = os.environ.get("DVBSUB_TOOLS", os.path.join(TOP, "dvbsub_tools"))
PID, PAGE, TABLE_PID = 256, 1, 32
PAIRS = 3
ROUND = 1 << 33
REFUSED = 3


class NoStream(Exception):
    """libavformat finds no stream in what it is given."""


def crc(data):
    """The checksum of a section (ISO/IEC 13818-1, annex A)."""
    register = 0xFFFFFFFF
    for byte in data:
        register ^= byte << 24
        for _ in range(8):
            register = (register << 1 ^ (0x04C11DB7 if register >> 31 else 0)) & 0xFFFFFFFF
    return register


def section(table, number, body):
    """A section of one table in a packet's payload."""
    data = struct.pack(">BHHBBB", table, 0xB000 | len(body) + 9, number, 0xC1, 0, 0) + body
    return b"\0" + data + struct.pack(">I", crc(data))


def packet(pid, counter, payload):
    return struct.pack(">BHB", 0x47, 0x4000 | pid, 0x10 | counter) + payload.ljust(184, b"\xff")


def with_tables(stream, page, ancillary):
    """The packets of a stream behind a PAT and a PMT, which name its pages and come again every 500 packets."""
    subtitles = b"\x59\x08eng\x10" + struct.pack(">HH", page, ancillary)
    pat = section(0, 1, struct.pack(">HH", 1, 0xE000 | TABLE_PID))
    pmt = section(2, 1, struct.pack(">HHBHH", 0xFFFF, 0xF000, 6, 0xE000 | PID, 0xF000 | len(subtitles)) + subtitles)
    out, counter = [], 0
    for place in range(0, len(stream), 188 * 500):
        out += [packet(0, counter, pat), packet(TABLE_PID, counter, pmt), stream[place:place + 188 * 500]]
        counter = (counter + 1) % 16
    return b"".join(out)


def clip(number):
    return max(0, min(255, number))


def rgba(colour):
    """A colour as libavcodec turns it: red, green, blue and alpha."""
    y, cr, cb, t = colour
    if y == 0 or t == 255:
        return 0, 0, 0, 0

    def fix(number):
        return int(number * 1024 + 0.5)
    cr, cb, y = cr - 128, cb - 128, (y - 16) * fix(255 / 219)
    red = fix(1.402 * 255 / 224) * cr + 512
    green = -fix(0.34414 * 255 / 224) * cb - fix(0.71414 * 255 / 224) * cr + 512
    blue = fix(1.772 * 255 / 224) * cb + 512
    return clip(y + red >> 10), clip(y + green >> 10), clip(y + blue >> 10), 255 - t


def pictures_of(text):
    """The pictures of `dump` by their ticks: None where all is clear, or rows of colours."""
    pictures, lines = {}, iter(text.splitlines())
    for line in lines:
        words = line.split()
        if words[2] == "clear":
            pictures[int(words[1])] = None
            continue
        rows = []
        for _ in range(int(words[3])):
            row = []
            for run in next(lines).split():
                length, colour = run.split("*")
                row += [rgba(tuple(bytes.fromhex(colour)))] * int(length)
            rows.append(row)
        pictures[int(words[1])] = rows
    return pictures


def read_sets(data):
    """The sets that libavcodec shows: times, and rectangles with their places and pixels."""
    place, sets = 0, []

    def numbers(count):
        nonlocal place
        place += 8 * count
        return struct.unpack_from("<%dq" % count, data, place - 8 * count)
    while place < len(data):
        pts, count = numbers(2)
        rectangles = []
        for _ in range(count):
            x, y, width, height = numbers(4)
            rectangles.append((x, y, width, height, data[place:place + 4 * width * height]))
            place += 4 * width * height
        sets.append((pts % ROUND, rectangles))
    return sets


def is_same(rows, rectangles):
    """A picture is what the rectangles show, and clear elsewhere."""
    shown = {}
    for left, top, width, height, pixels in rectangles:
        for k in range(width * height):
            pixel = tuple(pixels[4 * k:4 * k + 4])
            if pixel[3]:
                shown[left + k % width, top + k // width] = pixel
    for y, row in enumerate(rows or []):
        for x, pixel in enumerate(row):
            other = shown.pop((x, y), (0, 0, 0, 0))
            if (pixel[3] or other[3]) and any(abs(a - b) > 2 for a, b in zip(pixel, other)):
                return False
    return not shown


def has_known_fault(script):
    """Why libavcodec is known to show a script otherwise, if it does."""
    if re.search(r"^place,.*,through,", script, re.M):
        return "code 1 is let through"
    if re.search(r"^region,\d+,\d+,\d+,\d+,\d+,8,", script, re.M):
        return "8 bit codes may end at the right edge"
    return None


def compare(folder, reader, stream, pages, dump):
    """How many sets a stream has, and how many libavcodec shows otherwise than the words DUMP, OUT and ticks tell."""
    wrapped, text, sets = (os.path.join(folder, name) for name in ("w.ts", "d.txt", "sets"))
    with open(stream, "rb") as file, open(wrapped, "wb") as out:
        out.write(with_tables(file.read(), *pages))
    if subprocess.run([reader, wrapped, sets], stderr=subprocess.DEVNULL).returncode:
        raise NoStream(stream)
    with open(sets, "rb") as file:
        shown = read_sets(file.read())
    listed = os.path.join(folder, "list.txt")
    subprocess.run([PROGRAM, "list", str(PID), stream, listed], stdout=subprocess.PIPE, check=True)
    with open(listed) as file:
        times = sorted({int(time) for time in re.findall(r"^unit \d+ pts (\d+) ", file.read(), re.M)})
    rows = {}
    for first in range(0, len(times), 1000):
        ticks = [str(time) for time in times[first:first + 1000]]
        subprocess.run([*dump, stream, text, *ticks], stdout=subprocess.PIPE, check=True)
        with open(text) as file:
            rows.update(pictures_of(file.read()))
    # A set without a rectangle clears the display; one that libavcodec passes over leaves what was there.
    by_time = dict(shown)
    current, wrong = [], 0
    for time in times:
        current = by_time.get(time, current)
        wrong += not is_same(rows[time], current)
    return len(times), wrong


def is_refused(words):
    """Whether a command refuses its inputs; where it is neither that nor done, that is the end."""
    done = subprocess.run(words, stdout=subprocess.PIPE, stderr=subprocess.DEVNULL)
    if done.returncode not in (0, REFUSED):
        sys.exit(f"{' '.join(words)}: status {done.returncode}")
    return done.returncode == REFUSED


def compare_script(folder, reader, profile, script, font):
    """How many sets a script has, and how many libavcodec shows otherwise; None where it is not compiled."""
    stream = os.path.join(folder, "s.ts")
    if is_refused([PROGRAM, "compile", profile, str(PID), str(PAGE), script, font, stream]):
        return None
    return compare(folder, reader, stream, (PAGE, PAGE), [PROGRAM, "dump", profile, str(PID), str(PAGE), "4"])


def objects_of(stream):
    """The objects of a stream of two languages that stand on the ancillary page, set by set: whether an epoch begins, and their bytes by number."""
    with open(stream, "rb") as file:
        data = file.read()
    packets = [data[k:k + 188] for k in range(0, len(data), 188)]
    units = []
    for one in packets:
        if (one[1] & 0x1F) << 8 | one[2] == PID:
            units += [b""] if one[1] & 0x40 else []
            units[-1] += one[5 + one[4]:] if one[3] & 0x20 else one[4:]
    for unit in units:
        place, begins, objects = 9 + unit[8] + 2, False, {}
        while unit[place] == 0x0F:
            kind, page, length = struct.unpack(">BHH", unit[place + 1:place + 6])
            body = unit[place + 6:place + 6 + length]
            begins = begins or kind == 0x10 and body[1] >> 2 & 3 == 2
            if kind == 0x13 and page == 3:
                objects[body[:2]] = body
            place += 6 + length
        yield begins, objects


def has_number_again(stream):
    """A number of an object that both languages have comes again in an epoch, with other bytes. libavcodec paints such an object in each
    region that still lists its number, whatever its version."""
    known = {}
    for begins, objects in objects_of(stream):
        known = {} if begins else known
        if any(known.get(number, body) != body for number, body in objects.items()):
            return True
        known.update(objects)
    return False


def compare_pair(folder, reader, number):
    """The same of both languages of a pair that a number makes; None where it is not sent, where libavcodec
    shows one of the scripts otherwise when it is sent alone, or where a number of an object comes again."""
    rows = paired_streams.generated(number)
    scripts = [os.path.join(folder, name) for name in ("one.csv", "two.csv")]
    known = []
    for language, path in zip((rows, paired_streams.other_language(rows, random.Random(number))), scripts):
        paired_streams.written(language, path)
        with open(path) as file:
            known.append(has_known_fault(file.read()))
    stream = os.path.join(folder, "p.ts")
    if any(known) or is_refused([TOOLS, "pair", "hd", str(PID), "1", "2", "3", *scripts, stream]) or has_number_again(stream):
        return None
    try:
        alone = [compare_script(folder, reader, "hd", path, "none") for path in scripts]
        if any(wrong for _, wrong in alone):
            return None
        found = [compare(folder, reader, stream, (page, 3), [TOOLS, "pairdump", "hd", str(PID), str(page), "3", "4"]) for page in (1, 2)]
    except NoStream:
        # They are too short.
        return None
    return tuple(map(sum, zip(*found)))


def compare_pairs(folder, reader):
    """How many sets of the languages of pairs libavcodec shows otherwise."""
    found, number = [], 0
    while len(found) < PAIRS and number < 20 * PAIRS:
        one = compare_pair(folder, reader, number)
        found += [one] if one else []
        number += 1
    all_sets, bad = map(sum, zip(*found)) if found else (0, 1)
    print("%d pairs, %d sets of both languages, %d differ" % (len(found), all_sets, bad))
    return bad


def main():
    words = sys.argv[1:]
    examples = os.path.join(TOP, "examples")
    scripts = [words[k:k + 3] for k in range(0, len(words), 3)] or [
        ["sd", os.path.join(examples, name), os.path.join(examples, "television.bdf")]
        for name in sorted(os.listdir(examples)) if name.endswith(".csv")]
    with tempfile.TemporaryDirectory() as folder:
        reader = os.path.join(folder, "reader")
        made = subprocess.run(["cc", "-O2", "-o", reader, os.path.join(TOP, "checks", "libavcodec_pictures.c"),
                               "-lavformat", "-lavcodec", "-lavutil"], stderr=subprocess.DEVNULL)
        if made.returncode:
            print("libavcodec's headers are not installed: not compared")
            return 0
        bad = all_sets = 0
        for profile, script, font in scripts:
            with open(script, encoding="utf-8", errors="replace") as file:
                known = has_known_fault(file.read())
            found = compare_script(folder, reader, profile, script, font)
            name = os.path.basename(script)
            if found is None:
                print("%s: not compiled" % name)
                bad += 1
                continue
            print("%s: %d sets, %d differ%s" % (name, *found, " (known of libavcodec: %s)" % known if known else ""))
            all_sets += found[0]
            bad += found[1] if not known else 0
        print("%d scripts, %d sets, %d differ" % (len(scripts), all_sets, bad))
        bad += not all_sets
        if not words:
            bad += compare_pairs(folder, reader)
    return 1 if bad else 0


if __name__ == "__main__":
    sys.exit(main())
