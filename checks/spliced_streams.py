#!/usr/bin/env python3
"""Splices streams, and compares what the result shows with what its parts show.

    python3 checks/spliced_streams.py [FOLDER]

Streams are compiled from the script of examples/ and from scripts that are made here: several epochs, regions and colours, cues that overlap, times
over the end of a round of 2^33, and sets of several PES packets (`large`). FOLDER has examples, each a folder with a script `script.csv` (and perhaps
`font.bdf`) or a stream `stream.ts`; these join in. If ffmpeg is installed, so does a stream that it wrote.

Pairs of streams of a profile are spliced at, beside and between the times of the first one's sets, far behind them and before all of them. Which answer
is due is worked out here, from the times and ends that `check` tells of the parts, and from pages that are read here: that nothing is lost, that the sets
are shown, that the second begins with a mode change, and how far the last set lies before the cut. `Schedule` alone is taken from `splice`. Where it is
done, `dump` of the result has to be that of the first part before the cut and that of the second part behind it, at each set's time, a tick before and
behind it, and where pages are timed out; and `check` has to end with `breach none`. Some results are spliced again. Of each first and second stream a
lossy one, one with a wrong sync byte, and one that is entered late are tried too. A program that ends in a way that its inputs do not allow ends this with status 1.
"""

import os
import random
import re
import shutil
import subprocess
import sys
import tempfile

TOP = os.path.dirname(os.path.dirname(os.path.abspath(__file__)))
PROGRAM = os.environ.get("DVBSUB", os.path.join(TOP, "dvbsub"))
TOOLS = os.environ.get("DVBSUB_TOOLS", os.path.join(TOP, "dvbsub_tools"))
PID, PAGE = 256, 1
ROUND, HALF, CLOSE, LAST_TICK = 1 << 33, 1 << 32, 3600, 17179869183
NORMAL, ACQUISITION, MODE_CHANGE = 0, 1, 2


def run(program, *words):
    """The line that the program prints."""
    done = subprocess.run([program, *(str(word) for word in words)], stdout=subprocess.PIPE, stderr=subprocess.DEVNULL, check=False)
    return done.stdout.decode().strip()


def told_by(out, program, *words, may=("done",)):
    """What a program says, and the lines that it writes to OUT, whose name is put behind the words. It may say what begins with one of these."""
    if os.path.exists(out):
        os.remove(out)
    note = run(program, *words, out)
    if not note.startswith(may):
        sys.exit(f"{' '.join(str(word) for word in words)}: {note}")
    with open(out, encoding="utf-8") as lines:
        return note, lines.read().splitlines()


# ---- streams


def units(data):
    """The PES packets of the PID in a stream without losses."""
    unit = b""
    for at in range(0, len(data) - 187, 188):
        packet = data[at : at + 188]
        if (packet[1] & 0x1F) << 8 | packet[2] != PID or not packet[3] & 0x10:
            continue
        skipped = 5 + packet[4] if packet[3] & 0x20 else 4
        if packet[1] & 0x40:
            if unit:
                yield unit
            unit = b""
        unit += packet[skipped:]
    if unit:
        yield unit


def pages(data):
    """The state and the time-out in seconds of each page composition of the page."""
    found = []
    for unit in units(data):
        field = unit[9 + unit[8] + 2 :]
        while len(field) >= 6 and field[0] == 0x0F:
            length = int.from_bytes(field[4:6], "big")
            if field[1] == 0x10 and int.from_bytes(field[2:4], "big") == PAGE:
                found.append((field[7] >> 2 & 3, field[6]))
            field = field[6 + length :]
    return found


class Stream:
    """A stream in a file: its profile, the tick of its first slot, and whether something is lost in it or a packet is refused."""

    def __init__(self, name, profile, origin, path, lossy=False, unsynced=False):
        self.name, self.profile, self.origin, self.path = name, profile, origin, path
        self.lossy, self.unsynced, self.known = lossy, unsynced, {}
        with open(path, "rb") as packets:
            self.data = packets.read()

    def sets(self, anchor, folder):
        """The time and the end of each set, lifted from an anchor."""
        if anchor not in self.known:
            may = ("done", "stream ") if self.unsynced else ("done",)
            _, told = told_by(os.path.join(folder, "sets.txt"), PROGRAM, "check", self.profile, anchor, PID, PAGE, self.path, may=may)
            rows = [line.split() for line in told]
            self.known[anchor] = [(int(row[1]), row[2]) for row in rows if row[0] == "set"]
        return self.known[anchor]

    def begins_anew(self):
        found = pages(self.data)
        return bool(found) and found[0][0] == MODE_CHANGE

    def changed(self, name, data, folder, **faults):
        path = os.path.join(folder, name + ".ts")
        with open(path, "wb") as packets:
            packets.write(data)
        return Stream(name, self.profile, self.origin, path, **faults)


def is_payload(packet):
    return (packet[1] & 0x1F) << 8 | packet[2] == PID and packet[3] & 0x10


def broken_ones(stream, folder, number):
    """The stream with a packet lost, with a wrong sync byte, and entered behind its first and behind its second set."""
    packets = [stream.data[at : at + 188] for at in range(0, len(stream.data), 188)]
    own = [place for place, packet in enumerate(packets) if is_payload(packet)]
    starts = [place for place in own if packets[place][1] & 0x40]
    streams = []
    if len(own) > 2:
        place = own[len(own) // 2]
        data = b"".join(packets[:place] + packets[place + 1 :])
        streams.append(stream.changed(f"lossy{number}", data, folder, lossy=True))
        data = b"".join(packets[:place]) + b"\x48" + b"".join(packets[place:])[1:]
        streams.append(stream.changed(f"unsynced{number}", data, folder, unsynced=True))
    for entry in (1, 2):
        if len(starts) > entry:
            streams.append(stream.changed(f"late{number}_{entry}", b"".join(packets[starts[entry] :]), folder))
    return streams


# ---- scripts


def picture(rng, name, depth, width, height):
    if depth == 8:
        codes = "".join(f"{rng.choice((1, 9, 200, 255)):02X}" for _ in range(width * height))
    else:
        codes = "".join(f"{rng.randrange(1 << depth):X}" for _ in range(width * height))
    return f"picture,{name},{depth},{width},{height},{codes}"


def made_script(rng, origin, noisy=False):
    """A script of some epochs, from an origin on; its sets are of several PES packets where it is noisy."""
    width, height = (400, 400) if noisy else (rng.randrange(40, 90), rng.randrange(30, 60))
    refresh = rng.choice((1, 2, 5))
    rows = [f"origin,{origin}", f"display,{width},{height}", f"refresh,{refresh}"]
    if noisy:
        rows += [picture(rng, f"p{k}", 8, 260, 190) for k in range(2)]
    else:
        rows += [picture(rng, f"p{k}", depth, rng.randrange(2, 12), rng.randrange(1, 8)) for k, depth in enumerate((2, 4, 8, 4))]
    tick = origin + 450000 + rng.randrange(20) * 5000
    step = 400000 if noisy else 20000
    for _ in range(rng.randrange(1, 4)):
        start, tops = tick, [0, height // 2]
        rows.append(f"epoch,{start}")
        for number, top in enumerate(tops):
            rows.append(f"region,{number},{rng.randrange(4)},{top},{width - 4},{height // 2 - 1},8,{rng.randrange(2)}")
        for number in range(len(tops)):
            rows.append(f"colour,{start},{number},8,1,{rng.randrange(16, 236)},{rng.randrange(256)},128,{rng.choice((0, 90))}")
        starts = sorted(start + step * place for place in rng.sample(range(9), rng.randrange(1, 5)))
        for at in starts:
            end = at + step * rng.randrange(1, 6)
            name, number = rng.choice(("p0", "p1") if noisy else ("p0", "p1", "p2", "p3")), rng.randrange(2)
            mode = rng.choice(("solid", "through"))
            rows.append(f"place,{at},{end},{number},{rng.randrange(0, 10)},{rng.randrange(0, 3)},{mode},{name}")
            tick = max(tick, end)
        tick += step
    return "\n".join(rows) + "\n"


def compiled(name, profile, script, font, folder):
    """The stream of a script, or none where it is refused."""
    with open(script, encoding="utf-8") as rows:
        words = rows.readline().strip().split(",")
    path = os.path.join(folder, re.sub(r"\W", "_", f"{name}_{profile}") + ".ts")
    if words[0] != "origin":
        return []
    note = run(PROGRAM, "compile", profile, PID, PAGE, script, font, path)
    if not note.startswith(("done", "font ", "script ", "plan ", "schedule ", "long ")):
        sys.exit(f"compile {profile} {script}: {note}")
    return [Stream(name, profile, int(words[1]), path)] if note == "done" else []


def example_stream(folder):
    """The stream of the script of examples/, which is taken."""
    examples = os.path.join(TOP, "examples")
    found = compiled("subtitle", "sd", os.path.join(examples, "subtitle.csv"), os.path.join(examples, "television.bdf"), folder)
    if not found:
        sys.exit("examples/subtitle.csv is refused")
    return found[0]


def made_streams(folder, rng):
    streams = []
    near = (ROUND - 700000, ROUND - 1200000, ROUND - 1)
    origins = {"sd": (0, 90000, 123456) + near, "hd": (5, 700000) + near[:2], "large": (0,) + near[:1]}
    for profile, starts in origins.items():
        for number, origin in enumerate(starts):
            for _ in range(20):
                script = os.path.join(folder, f"{profile}{number}.csv")
                with open(script, "w", encoding="utf-8") as rows:
                    rows.write(made_script(rng, origin, profile == "large"))
                found = compiled(f"{profile}{number}", profile, script, "none", folder)
                if found:
                    streams += found
                    break
    return streams


def given_streams(given, folder):
    """The streams of a folder with examples, and of those that are made elsewhere the stream itself."""
    streams = []
    for name in sorted(os.listdir(given)):
        at = lambda part: os.path.join(given, name, part)
        if os.path.exists(at("script.csv")):
            font = at("font.bdf") if os.path.exists(at("font.bdf")) else "none"
            for profile in ("sd", "hd", "large"):
                found = compiled(name, profile, at("script.csv"), font, folder)
                streams += found
                if found:
                    break
        elif os.path.exists(at("stream.ts")) and os.path.getsize(at("stream.ts")) % 188 == 0:
            note, lines = told_by(os.path.join(folder, "list.txt"), PROGRAM, "list", PID, at("stream.ts"), may=("done", "stream "))
            lossy = any(re.match(r"gap|error|short|long|pes \d+ (?!Other)", line) for line in lines)
            streams.append(Stream(name, "sd", 0, at("stream.ts"), lossy=lossy, unsynced=note.startswith("stream ")))
    return streams


def foreign_stream(folder):
    """A stream that ffmpeg coded of a compiled one, or none."""
    if not shutil.which("ffmpeg"):
        return []
    source, path = example_stream(folder).path, os.path.join(folder, "ffmpeg.ts")
    tables = os.path.join(folder, "tables.ts")
    note = run(TOOLS, "mux", 1, 100, PID, PAGE, "eng", 2, 101, 257, 1, "eng", source, "/dev/null", tables)
    if note != "done":
        sys.exit(f"mux: {note}")
    run("ffmpeg", "-v", "error", "-y", "-copyts", "-i", tables, "-map", "0:p:1", "-c:s", "dvbsub", "-streamid", f"0:{PID}", "-muxdelay", 0,
        "-muxpreload", 0, "-f", "mpegts", path)
    if not os.path.exists(path) or not os.path.getsize(path):
        sys.exit("ffmpeg wrote no stream")
    return [Stream("ffmpeg", "sd", 0, path)]


# ---- what is due


def due(first, second, cut, folder):
    """The fault that is due, or none: then `splice` is done, or the schedule refuses."""
    for fault, part in (("Packet", "unsynced"), ("Lost", "lossy")):
        if getattr(first, part) or getattr(second, part):
            return fault
    ours, theirs = first.sets(first.origin, folder), second.sets(0, folder)
    if any(end == "notlater" or (time < cut and end != "shown") for time, end in ours) or any(end != "shown" for _, end in theirs):
        return "NotShown"
    if not theirs or not second.begins_anew():
        return "NoModeChange"
    before = [time for time, _ in ours if time < cut]
    if before and cut - before[-1] <= CLOSE:
        return "CutTooClose"
    if before and cut - before[-1] >= HALF:
        return "CutTooFar"
    return None


def texts(stream, ticks, folder, name):
    """The pictures at the ticks, without their ticks."""
    if not ticks:
        return []
    told = os.path.join(folder, name)
    note = run(PROGRAM, "dump", stream.profile, PID, PAGE, 1, stream.path, told, *ticks)
    if note != "done":
        return [note]
    with open(told, encoding="utf-8") as lines:
        parts = re.split(r"^picture \d+ ", lines.read(), flags=re.MULTILINE)
    return parts[1:]


def asked(times, second, moved, cut):
    """The ticks at which pictures are compared: about each set's time and the cut, and where pages are timed out."""
    ticks = {cut - 1, cut}
    for time in times:
        ticks |= {time - 1, time, time + 1}
    for out in {out for _, out in pages(second.data)}:
        ticks |= {time + 90000 * out - late for time in (times[-1], moved[-1]) for late in (0, 1)}
    # a first tick that lies more than half a round before the first set places the sets a round earlier
    kept = sorted(tick for tick in ticks if 0 <= tick <= LAST_TICK and tick >= times[0] - 1)
    return kept[:1000] if len(kept) <= 1000 else sorted(random.Random(1).sample(kept, 1000))


def compared(first, second, cut, result, folder):
    """What differs between the result and its parts."""
    ours = [time for time, _ in first.sets(first.origin, folder) if time < cut]
    theirs = [time for time, _ in second.sets(0, folder)]
    begin = theirs[0]
    moved = [time + cut - begin for time in theirs]
    # one anchor suits all sets that lie within a round
    if moved[-1] - min(ours + moved) >= ROUND or moved[-1] > LAST_TICK:
        return None
    ticks = asked(ours + moved, second, moved, cut)
    before, behind = [tick for tick in ticks if tick < cut], [tick for tick in ticks if tick >= cut]
    got = texts(result, ticks, folder, "result.txt")
    wanted = texts(first, before, folder, "first.txt") if ours else ["clear\n"] * len(before)
    wanted = wanted + texts(second, [tick - cut + begin for tick in behind], folder, "second.txt")
    faults = [f"tick {tick}" for tick, one, other in zip(ticks, got, wanted) if one != other]
    if len(got) != len(ticks) or len(wanted) != len(ticks):
        faults.append(f"{len(got)} and {len(wanted)} pictures for {len(ticks)} ticks: {got[:1]} {wanted[:1]}")
    _, rows = told_by(os.path.join(folder, "check.txt"), PROGRAM, "check", first.profile, first.origin, PID, PAGE, result.path)
    if not rows or rows[-1] != "breach none":
        faults.append(f"check: {rows[-1:]}")
    told_times = [int(row.split()[1]) for row in rows if row.startswith("set ")]
    if told_times != ours + moved and min(ours + moved) >= first.origin and max(ours + moved) < first.origin + ROUND:
        faults.append(f"sets at {told_times} for {ours + moved}")
    return faults


def cuts(first, folder):
    """At, beside and between the times of the sets, before all, and far behind."""
    times = [time for time, end in first.sets(first.origin, folder) if end != "notlater"]
    places = {first.origin + 450000, first.origin + 5000000}
    for time in times:
        places |= {time - 1, time, time + 1, time + CLOSE, time + CLOSE + 1, time + 30000}
    for time in times[-1:]:
        # a cut that is as far as may be would make a stream of a gigabyte
        places |= {time + HALF, time + HALF + 1, time + 900000}
    return sorted(place for place in places if 0 <= place <= LAST_TICK)


class Tally:
    """How many splices were tried, how they ended, and what differs."""

    def __init__(self):
        self.answers, self.faults, self.compared = {}, [], 0

    def add(self, answer):
        self.answers[answer] = self.answers.get(answer, 0) + 1


def spliced(first, second, cut, tally, folder, path):
    """Splices, and gives the result, or none."""
    if os.path.exists(path):
        os.remove(path)
    note = run(TOOLS, "splice", first.profile, PID, PAGE, first.origin, cut, first.path, second.path, path)
    tally.add(note)
    wanted = due(first, second, cut, folder)
    name = f"{first.profile} {first.name} at {cut} {second.name}"
    if wanted is not None:
        if note != f"refused {wanted}":
            tally.faults.append(f"{name}: {note} for refused {wanted}")
        return None
    if note == "refused Schedule":
        return None
    if note != "done":
        tally.faults.append(f"{name}: {note}")
        return None
    result = Stream(f"({first.name} {cut} {second.name})", first.profile, first.origin, path)
    # what is told of a gap of millions of null packets takes minutes
    if len(result.data) > 188 * 300000:
        return None
    faults = compared(first, second, cut, result, folder)
    if faults is not None:
        tally.compared += 1
        tally.faults += [f"{name}: {fault}" for fault in faults]
    return result


def all_of(streams, folder, rng, tally):
    """Pairs of a profile at some cuts, fewer of each where there are many; some results again; streams with faults."""
    results, number = [], 0
    most_cuts = 12 if len(streams) <= 20 else 4
    for first in streams:
        others = [stream for stream in streams if stream.profile == first.profile]
        for second in rng.sample(others, min(len(others), 8)):
            places = cuts(first, folder)
            for cut in rng.sample(places, min(len(places), most_cuts)):
                number += 1
                keep = rng.random() < 0.02
                path = os.path.join(folder, f"again{number}.ts" if keep else "result.ts")
                result = spliced(first, second, cut, tally, folder, path)
                if result and keep and len(result.data) < 188 * 20000:
                    results.append(result)
    for again in results:
        for other in rng.sample([stream for stream in streams if stream.profile == again.profile], 1):
            for first, second in ((again, other), (other, again), (again, again)):
                for cut in rng.sample(cuts(first, folder), 4):
                    spliced(first, second, cut, tally, folder, os.path.join(folder, "result.ts"))
    for number, stream in enumerate(streams):
        for broken in broken_ones(stream, folder, number):
            for first, second in ((broken, stream), (stream, broken)):
                for cut in rng.sample(cuts(stream, folder), 2):
                    spliced(first, second, cut, tally, folder, os.path.join(folder, "result.ts"))


def main(words):
    rng, tally = random.Random(20), Tally()
    with tempfile.TemporaryDirectory() as folder:
        streams = [example_stream(folder), *made_streams(folder, rng)]
        if words:
            streams += given_streams(words[0], folder)
        theirs = foreign_stream(folder)
        for stream in theirs:
            ends = [end for _, end in stream.sets(0, folder)]
            print(f"ffmpeg's stream: {len(ends)} sets, {', '.join(sorted(set(ends))) or 'none'}")
        streams += theirs
        print(f"{len(streams)} streams")
        all_of(streams, folder, rng, tally)
    for answer, count in sorted(tally.answers.items()):
        print(f"{count} {answer}")
    print("".join(f"    {fault}\n" for fault in tally.faults), end="")
    print(f"{sum(tally.answers.values())} splices, {tally.compared} compared, {len(tally.faults)} differ")
    return 1 if tally.faults or not tally.compared else 0


if __name__ == "__main__":
    sys.exit(main(sys.argv[1:]))
