#!/usr/bin/env python3
"""Sends pairs of scripts on one PID, and shows each page of each stream from every packet on.

    python3 checks/paired_streams.py [FOLDER]

A pair is a script and another one of equal timing, in which some pictures, colours and places are others. The scripts are those of
FOLDER and its folders (`*.csv`; without a word, of examples/), with a picture in the place of each text, and generated ones. A receiver
of either page that enters behind j packets has to show nothing up to the time of the first set that comes whole and is no normal one,
and from then on what `expect` authors, at all ticks at which something changes, and the ones before them. Where j packets and a null
packet behind them are missing, nothing else is asked than where j + 1 are, so that only the packets of the PID and those behind them
are looked at. The sets are read out of the stream here, by the layouts of ISO/IEC 13818-1 and EN 300 743. `pair` may refuse a pair of
scripts, but not end in another way.
"""

import concurrent.futures
import csv
import io
import os
import random
import re
import subprocess
import sys
import tempfile

TOP = os.path.dirname(os.path.dirname(os.path.abspath(__file__)))
PROGRAM = os.environ.get("DVBSUB", os.path.join(TOP, "dvbsub"))
TOOLS = os.environ.get("DVBSUB_TOOLS", os.path.join(TOP, "dvbsub_tools"))
PID = 256
PAGES = (1, 2)
ANCILLARY = 3
ROUND = 1 << 33
LATEST = (1 << 34) - 1
MOST_TICKS = 1000
MOST_ENTRIES = 60
GENERATED = 60


def run(program, *words):
    """The line that the program prints."""
    done = subprocess.run([program, *words], stdout=subprocess.PIPE, stderr=subprocess.DEVNULL, check=False)
    return done.stdout.decode().strip()


# ---- scripts


def text_as_picture(cells, number):
    """The rows of a picture and its place for the row of a text: the bits of its bytes, in its two codes."""
    start, end, region, x, y, front, back, text = cells[1:9]
    lines = text.split("\n")
    wide = max(max(len(line.encode()) for line in lines), 1)
    codes = ""
    for line in lines:
        bits = "".join(f"{byte:08b}" for byte in line.encode().ljust(wide, b" "))
        codes += bits
    depth = 8 if max(int(front), int(back)) > 15 else 4 if max(int(front), int(back)) > 3 else 2
    digits = 2 if depth == 8 else 1
    shown = "".join(f"{int(front if bit == '1' else back):0{digits}X}" for bit in codes)
    name = f"text {number}"
    picture = ["picture", name, str(depth), str(8 * wide), str(len(lines)), shown]
    return [picture, ["place", start, end, region, x, y, "solid", name]]


def plain_rows(path):
    """The rows of a script file without its texts; None where the file is none."""
    try:
        with open(path, encoding="utf-8", newline="") as source:
            rows = [row for row in csv.reader(source) if row]
    except (UnicodeDecodeError, csv.Error):
        return None
    plain = []
    for row in rows:
        if row[0] == "cue" and len(row) == 9:
            plain += text_as_picture(row, len(plain))
        else:
            plain.append(row)
    return plain


def other_language(rows, choice):
    """The rows of a script of the same timing: some pictures, colours and places are others."""
    width = next((int(row[1]) for row in rows if row[0] == "display"), 0)
    others = []
    for row in rows:
        row = list(row)
        kind = row[0]
        if kind == "region" and choice.random() < 0.3:
            row[2] = str(choice.randrange(0, max(width - int(row[4]), 0) + 1))
        elif kind == "colour" and choice.random() < 0.4:
            row[5] = str(choice.randrange(16, 236))
        elif kind == "picture" and choice.random() < 0.5 and "*" not in row[5]:
            digits = sorted(set(row[5])) if row[2] != "8" else []
            if len(digits) > 1:
                turned = dict(zip(digits, digits[1:] + digits[:1]))
                row[5] = "".join(turned[digit] for digit in row[5])
        elif kind == "place" and choice.random() < 0.3:
            row[4] = str(max(int(row[4]) - choice.randrange(0, 3), 0))
        others.append(row)
    return others


def generated(number):
    """The rows of a script that a number makes."""
    choice = random.Random(number)
    width, height = choice.choice([(64, 48), (160, 90), (720, 576)])
    refresh = choice.choice([1, 2, 5])
    origin = choice.choice([0, 0, 12345, ROUND - 400000])
    rows = [["origin", str(origin)], ["display", str(width), str(height)], ["refresh", str(refresh)]]
    time = origin + 90000 + choice.randrange(0, 50000)
    names = []
    for epoch in range(choice.randrange(1, 4)):
        rows.append(["epoch", str(time)])
        tall = min(max(height // 4, 8), 24)
        regions = []
        for region in range(choice.randrange(1, 4)):
            wide, depth = choice.randrange(width // 2, width + 1), choice.choice([2, 4, 4, 8])
            regions.append((region, wide, tall, depth))
            place = choice.randrange(0, width - wide + 1)
            rows.append(["region", str(region), str(place), str(region * tall), str(wide), str(tall), str(depth), str(region % 2)])
        for region, _, _, depth in regions:
            for entry in range(1, 4):
                cells = [str(region % 2), str(depth), str(entry), str(choice.randrange(16, 236)), str(choice.randrange(16, 241))]
                rows.append(["colour", str(time)] + cells + [str(choice.randrange(16, 241)), str(choice.choice([0, 0, 64]))])
        here = time
        for _ in range(choice.randrange(2, 7)):
            region, wide, tall, depth = choice.choice(regions)
            fitting = [name for name in names if name[1] <= depth and name[2] <= wide and name[3] <= tall]
            if not fitting or choice.random() < 0.7:
                shallow = choice.choice([d for d in (2, 4, 8) if d <= depth])
                w, h = choice.randrange(1, min(wide, 24) + 1), choice.randrange(1, min(tall, 6) + 1)
                digits = 2 if shallow == 8 else 1
                codes = "".join(f"{choice.randrange(0, 4):0{digits}X}" for _ in range(w * h))
                name = (f"p{len(names)}", shallow, w, h)
                names.append(name)
                rows.append(["picture", name[0], str(shallow), str(w), str(h), codes])
            else:
                name = choice.choice(fitting)
            x, y = choice.randrange(0, wide - name[2] + 1), choice.randrange(0, tall - name[3] + 1)
            end = here + choice.randrange(10, 40) * 9000
            mode = choice.choice(["solid", "solid", "through"])
            rows.append(["place", str(here), str(end), str(region), str(x), str(y), mode, name[0]])
            if choice.random() < 0.3:
                rows.append(["colour", str(end), str(region % 2), str(depth), "1", str(choice.randrange(16, 236)), "128", "128", "0"])
            here += choice.randrange(1, 12) * 9000
            time = max(time, end)
        time += choice.randrange(2, 30) * 9000
    return rows


def written(rows, path):
    text = io.StringIO()
    csv.writer(text, lineterminator="\n").writerows(rows)
    with open(path, "w", encoding="utf-8", newline="") as out:
        out.write(text.getvalue())


# ---- streams


def sets_of(data):
    """The sets of a stream, each in one PES packet: the place of its first packet, its time, and the state of each page."""
    sets = []
    payload = []

    def close():
        if not payload:
            return
        first, unit = payload[0][0], b"".join(part for _, part in payload)
        head = unit[8]
        time = (unit[9] >> 1 & 7) << 30 | unit[10] << 22 | (unit[11] >> 1) << 15 | unit[12] << 7 | unit[13] >> 1
        states = {}
        place = 9 + head + 2
        while place + 6 <= len(unit) and unit[place] == 0x0F:
            kind, page, size = unit[place + 1], unit[place + 2] << 8 | unit[place + 3], unit[place + 4] << 8 | unit[place + 5]
            if kind == 0x10:
                states[page] = unit[place + 7] >> 2 & 3
            place += 6 + size
        sets.append((first, time, states))

    for k in range(len(data) // 188):
        packet = data[188 * k : 188 * k + 188]
        if (packet[1] & 0x1F) << 8 | packet[2] != PID or not packet[3] & 0x10:
            continue
        if packet[1] & 0x40:
            close()
            payload.clear()
        start = 4 + (1 + packet[4] if packet[3] & 0x20 else 0)
        payload.append((k, packet[start:]))
    close()
    return sets


def texts(path):
    """The texts of pictures, by their ticks."""
    with open(path, encoding="utf-8") as told:
        parts = re.split(r"(?m)^(?=picture )", told.read())
    return {int(part.split()[1]): part for part in parts if part}


def ticks_of(rows, times):
    """The ticks at which something changes, and the ones before them."""
    named = set(times)
    for row in rows:
        if row[0] in ("epoch", "colour"):
            named.add(int(row[1]))
        elif row[0] == "place":
            named |= {int(row[1]), int(row[2])}
    every = sorted(t for t in {at + by for at in named for by in (-1, 0)} if 0 <= t <= LATEST)
    return every[:MOST_TICKS]


def lifted(time, origin):
    return origin + (time - origin) % ROUND


def entered(profile, both, folder):
    """The note of `pair`; how many entries were looked at, and those at which something else was shown than has to be."""
    scripts = [os.path.join(folder, name) for name in ("first.csv", "second.csv")]
    stream = os.path.join(folder, "both.ts")
    for rows, path in zip(both, scripts):
        written(rows, path)
    note = run(TOOLS, "pair", profile, str(PID), *map(str, PAGES), str(ANCILLARY), *scripts, stream)
    if note != "done":
        return note, 0, [] if note.startswith("refused ") else [f"pair: {note}"]
    origin = int(both[0][0][1])
    with open(stream, "rb") as packets:
        data = packets.read()
    count = len(data) // 188
    sets = [(first, lifted(time, origin), states) for first, time, states in sets_of(data)]
    if not sets:
        return note, 0, ["the stream has no set"]
    ticks = ticks_of(both[0] + both[1], [time for _, time, _ in sets])
    asked = [str(tick) for tick in ticks]
    wanted = []
    for place, script in enumerate(scripts):
        out = os.path.join(folder, f"expect{place}.txt")
        told = run(PROGRAM, "expect", script, "none", out, *asked)
        if told != "done":
            return note, 0, [f"expect: {told}"]
        wanted.append(texts(out))
    sent = [k for k in range(count) if (data[188 * k + 1] & 0x1F) << 8 | data[188 * k + 2] == PID]
    places = sorted({0, count} | set(sent) | {k + 1 for k in sent})
    if len(places) > MOST_ENTRIES:
        places = sorted(random.Random(count).sample(places, MOST_ENTRIES))
    bad = []
    part, out = os.path.join(folder, "part.ts"), os.path.join(folder, "dump.txt")
    for missed in places:
        with open(part, "wb") as packets:
            packets.write(data[188 * missed :])
        for place, page in enumerate(PAGES):
            entry = next((time for first, time, states in sets if first >= missed and states.get(page)), None)
            told = run(TOOLS, "pairdump", profile, str(PID), str(page), str(ANCILLARY), str(1 + missed % 3), part, out, *asked)
            shown = texts(out) if told == "done" else {}
            for tick in ticks:
                clear = entry is None or tick < entry
                want = f"picture {tick} clear\n" if clear else wanted[place][tick]
                if shown.get(tick) != want:
                    got = (shown.get(tick) or "")[:60]
                    bad.append(f"page {page} behind {missed} packets at {tick}: {told}, {got!r}, not {want[:60]!r}")
                    break
    return note, len(PAGES) * len(places), bad


def paired(name, profile, rows, number):
    with tempfile.TemporaryDirectory() as folder:
        note, checked, bad = entered(profile, (rows, other_language(rows, random.Random(number))), folder)
    return name, profile, note, checked, bad


def main(words):
    top = words[0] if words else os.path.join(TOP, "examples")
    jobs = []
    for folder, _, names in sorted(os.walk(top)):
        for name in sorted(names):
            if name.endswith(".csv"):
                rows = plain_rows(os.path.join(folder, name))
                if rows and rows[0][0] == "origin":
                    path = os.path.relpath(os.path.join(folder, name), top)
                    jobs += [(path, profile, rows, place) for place, profile in enumerate(("sd", "hd"))]
    for number in range(GENERATED):
        jobs.append((f"generated {number}", "hd" if number % 4 == 3 else "sd", generated(number), number))
    total = faulty = streams = 0
    with concurrent.futures.ThreadPoolExecutor(int(os.environ.get("JOBS", "2"))) as pool:
        for name, profile, note, checked, bad in pool.map(lambda job: paired(*job), jobs):
            print(f"{name}, {profile}: {note}, {checked} entries")
            print("".join(f"    {line}\n" for line in bad), end="")
            total, faulty, streams = total + checked, faulty + len(bad), streams + (note == "done")
    print(f"{streams} streams of two languages, {total} entries, {faulty} differ")
    return 1 if faulty or not total else 0


if __name__ == "__main__":
    sys.exit(main(sys.argv[1:]))
