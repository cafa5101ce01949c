"""Reads a script as the compiler does and says how it would be refused (docs/FORMATS.md, "How a script is refused").

It knows the tests of each record, and those of the plan and the schedule, for scripts of any make.
"""

import csv
import re
from bisect import bisect_left, insort
from dataclasses import dataclass, field

from .pictures import Picture
from .sending import CLOSE, LONGEST_UNIT, PROFILES, SECOND, Channel, Load, Region

DEPTHS = (2, 4, 8)
NUMBER = re.compile(r"0|[1-9][0-9]{0,10}", re.A)
RUN = re.compile(r"([1-9][0-9]{0,6})\*([0-9A-Fa-f]{1,2})", re.A)
LONGEST_SCRIPT, LONGEST_CUE, MOST_CODES, LONGEST_COUNT = 3_240_000_000, 54_000_000, 268_435_456, 2_073_600
BYTE = (0, 255)
TICK = "tick"
SPANS = [TICK, TICK, BYTE, (0, 1919), (0, 1079)]
# The cells of each record: a range, a depth, a tick, or a text.
CELLS = {
    "origin": [(0, (1 << 33) - 1)], "display": [(1, 1920), (1, 1080)], "refresh": [(1, 60)], "epoch": [TICK],
    "region": [BYTE, (0, 1919), (0, 1079), (1, 1920), (1, 1080), DEPTHS, BYTE],
    "colour": [TICK, BYTE, DEPTHS, BYTE, BYTE, BYTE, BYTE, BYTE],
    "picture": [None, DEPTHS, (1, 1920), (1, 1080), None],
    "place": SPANS + ["mode", None], "cue": SPANS + [BYTE, BYTE, None],
}
MOST = {"epoch": 512, "region": 64, "colour": 8_192, "picture": 4_096, "place": 4_096}


class Refusal(Exception):
    """The line of the status."""


@dataclass
class Epoch:
    start: int
    record: int
    regions: dict = field(default_factory=dict)     # number: (Region, CLUT)
    colours: list = field(default_factory=list)     # (tick, CLUT, depth, entry, record)
    cues: list = field(default_factory=list)        # (start, end, region, segment bytes, record)


def codes_of(text, depth, count, refuse):
    """The codes of a picture's last cell."""
    digits = 2 if depth == 8 else 1
    if "*" in text:
        runs = [RUN.fullmatch(run) for run in text.split(" ")]
        if not all(run and int(run[1]) <= LONGEST_COUNT and len(run[2]) == digits for run in runs):
            refuse("Number")
        codes = [(int(run[1]), int(run[2], 16)) for run in runs]
        if sum(run for run, _ in codes) != count:
            refuse("Count")
        data = b"".join(bytes([code]) * run for run, code in codes)
    else:
        if len(text) != digits * count:
            refuse("Count")
        if not re.fullmatch("[0-9A-Fa-f]*", text, re.A):
            refuse("Number")
        data = bytes.fromhex(text) if digits == 2 else bytes(int(digit, 16) for digit in text)
    if data and max(data) >= 1 << depth:
        refuse("CodeRange")
    return data


class Reader:
    """The records of a script, tested one by one."""

    def __init__(self, font):
        self.font, self.epochs, self.pictures, self.ticks = font, [], {}, []
        self.counts, self.codes, self.record = dict.fromkeys(MOST, 0), 0, 0
        self.origin = self.display = self.refresh = None

    def refuse(self, kind):
        raise Refusal(f"script {self.record} {kind}")

    def read(self, text):
        for self.record, row in enumerate((row for row in csv.reader(text.splitlines(keepends=True)) if row), 1):
            self.row(row)
        if not self.epochs:
            self.record += 1
            self.refuse("Order")
        return self

    def row(self, row):
        word, *cells = row
        if word not in CELLS:
            self.refuse("Unknown")
        if len(cells) != len(CELLS[word]):
            self.refuse("Count")
        self.order(word)
        counted = "place" if word == "cue" else word
        if counted in MOST:
            self.counts[counted] += 1
            if self.counts[counted] > MOST[counted]:
                self.refuse("TooMany")
        values = [self.cell(kind, cell) for kind, cell in zip(CELLS[word], cells)]
        getattr(self, "take_" + word)(*values)

    def order(self, word):
        """The place of a record among the others."""
        heads = ("origin", "display", "refresh")
        if (self.record <= 3) != (word in heads) or word in heads and heads[self.record - 1] != word:
            self.refuse("Order")
        if word not in (*heads, "epoch", "picture") and not self.epochs:
            self.refuse("Order")
        if word == "region" and (self.epochs[-1].colours or self.epochs[-1].cues):
            self.refuse("Order")

    def cell(self, kind, cell):
        """A cell as its value."""
        if kind is None:
            return cell
        if kind == "mode":
            return cell if cell in ("solid", "through") else self.refuse("Unknown")
        if not NUMBER.fullmatch(cell):
            self.refuse("Number")
        number = int(cell)
        least, most = (self.origin, self.origin + LONGEST_SCRIPT) if kind == TICK else (kind[0], kind[-1])
        if not least <= number <= most or kind == DEPTHS and number not in DEPTHS:
            self.refuse("Range")
        return number

    def close(self, *ticks):
        """No tick is too close to another; they are then kept."""
        for number, tick in enumerate(ticks):
            at = bisect_left(self.ticks, tick)
            near = self.ticks[max(0, at - 1):at + 1] + list(ticks[:number])
            if any(1 <= abs(tick - other) <= CLOSE for other in near):
                self.refuse("TooClose")
        for tick in ticks:
            at = bisect_left(self.ticks, tick)
            if self.ticks[at:at + 1] != [tick]:
                insort(self.ticks, tick)

    def take_origin(self, tick):
        self.origin = tick

    def take_display(self, width, height):
        self.display = width, height

    def take_refresh(self, seconds):
        self.refresh = seconds

    def take_epoch(self, start):
        if self.epochs:
            last = self.epochs[-1]
            if start <= last.start:
                self.refuse("Order")
            if any(cue[1] > start for cue in last.cues) or any(colour[0] >= start for colour in last.colours):
                self.refuse("OutsideEpoch")
        self.close(start)
        self.counts["region"] = 0
        self.epochs.append(Epoch(start, self.record))

    def take_region(self, number, x, y, width, height, depth, clut):
        regions = self.epochs[-1].regions
        if number in regions:
            self.refuse("DoubleRegion")
        if x + width > self.display[0] or y + height > self.display[1]:
            self.refuse("RegionOutside")
        if any(y < other.y + other.height and other.y < y + height for other, _ in regions.values()):
            self.refuse("RegionsMeet")
        regions[number] = Region(number, x, y, width, height, depth), clut

    def take_colour(self, tick, clut, depth, entry, *_):
        if entry >= 1 << depth:
            self.refuse("CodeRange")
        if tick < self.epochs[-1].start:
            self.refuse("OutsideEpoch")
        self.close(tick)
        self.epochs[-1].colours.append((tick, clut, depth, entry, self.record))

    def take_picture(self, name, depth, width, height, codes):
        if not 1 <= len(name.encode()) <= 64:
            self.refuse("Range")
        data = codes_of(codes, depth, width * height, self.refuse)
        self.count(width * height)
        rows = tuple(data[k:k + width] for k in range(0, len(data), width))
        self.pictures[name] = Picture(width, height, depth, rows)

    def count(self, codes):
        self.codes += codes
        if self.codes > MOST_CODES:
            self.refuse("TooMany")

    def region_of(self, number):
        return self.epochs[-1].regions[number][0] if number in self.epochs[-1].regions else self.refuse("NoRegion")

    def take_place(self, start, end, number, x, y, _, name):
        region = self.region_of(number)
        if name not in self.pictures:
            self.refuse("NoPicture")
        picture = self.pictures[name]
        if picture.depth > region.depth:
            self.refuse("CodeRange")
        table = {(2, 4): 3, (2, 8): 5, (4, 8): 17}.get((picture.depth, region.depth), 0)
        self.inside(region, picture, x, y)
        self.span(start, end)
        self.epochs[-1].cues.append((start, end, number, picture.segment_bytes(table), self.record))

    def take_cue(self, start, end, number, x, y, letters, box, text):
        region = self.region_of(number)
        if max(letters, box) >= 1 << region.depth:
            self.refuse("CodeRange")
        picture = self.drawn(text, region.depth, letters, box)
        if not picture.width:
            self.refuse("Range")
        self.inside(region, picture, x, y)
        self.span(start, end)
        self.count(picture.width * picture.height)
        self.epochs[-1].cues.append((start, end, number, picture.segment_bytes(), self.record))

    def drawn(self, text, depth, letters, box):
        """The picture of a text, as the compiler draws it."""
        lines = text.split("\n")
        for letter in text:
            if letter != "\n" and ord(letter) not in (self.font.glyphs if self.font else ()):
                self.refuse(f"Glyph {ord(letter)}")
        width = max(map(self.font.width, lines)) if self.font else 0
        rows = [row for line in lines for row in self.font.ink(line, width)] if width else []
        both = bytes.maketrans(b"01", bytes([box, letters]))
        return Picture(width, len(rows), depth, tuple(f"{row:0{width}b}".encode().translate(both) for row in rows))

    def inside(self, region, picture, x, y):
        if x + picture.width > region.width or y + picture.height > region.height:
            self.refuse("CueOutside")

    def span(self, start, end):
        if start < self.epochs[-1].start:
            self.refuse("OutsideEpoch")
        if end <= start:
            self.refuse("EmptySpan")
        if end - start > LONGEST_CUE:
            self.refuse("TooLong")
        self.close(start, end)


def instants_of(script):
    """Each instant with whether it is a refresh, and the record that a refusal names, in order."""
    records = {}
    for epoch in script.epochs:
        named = [(epoch.start, epoch.record)] + [(tick, record) for tick, *_, record in epoch.colours]
        named += [(tick, cue[4]) for cue in epoch.cues for tick in cue[:2]]
        for tick, record in named:
            records[tick] = min(record, records.get(tick, record))
    ticks, spans = sorted(records), sorted((cue[0], cue[1]) for epoch in script.epochs for cue in epoch.cues)
    latest, at = 0, 0
    for tick, later in zip(ticks, ticks[1:] + [None]):
        yield tick, False, records[tick]
        while at < len(spans) and spans[at][0] <= tick:
            latest, at = max(latest, spans[at][1]), at + 1
        again = tick + script.refresh * SECOND
        while later and latest > tick and again + CLOSE < later:
            yield again, True, records[tick]
            again += script.refresh * SECOND


class Plan:
    """The display sets of a script, one after the other."""

    def __init__(self, script):
        self.script, self.number, self.renewed = script, -1, None

    def sets(self):
        """Tick, record, load, nodes and pixel bytes of each set."""
        epochs = self.script.epochs
        for tick, is_refresh, record in instants_of(self.script):
            is_change = self.number + 1 < len(epochs) and epochs[self.number + 1].start == tick
            if is_change:
                self.begin(epochs[self.number + 1])
            is_full = is_change or is_refresh or tick - self.renewed >= self.script.refresh * SECOND
            self.renewed = tick if is_full else self.renewed
            yield tick, record, *self.set(tick, is_full)

    def begin(self, epoch):
        self.number += 1
        self.epoch, self.entries, self.live = epoch, {}, {number: () for number in epoch.regions}
        self.listed = dict(self.live)
        self.starts = sorted(range(len(epoch.cues)), key=lambda k: epoch.cues[k][0], reverse=True)

    def set(self, tick, is_full):
        epoch, before = self.epoch, self.live
        gone = {number: tuple(k for k in live if epoch.cues[k][1] > tick) for number, live in before.items()}
        while self.starts and epoch.cues[self.starts[-1]][0] <= tick:
            cue = self.starts.pop()
            number = epoch.cues[cue][2]
            gone[number] = tuple(sorted((*gone[number], cue)))
        self.live = gone
        self.listed.update({number: live for number, live in gone.items() if live})
        now = [colour[1:4] for colour in epoch.colours if colour[0] == tick]
        for clut, depth, entry in now:
            self.entries.setdefault(clut, set()).add((depth, entry))
        sent = [n for n in sorted(gone) if is_full or gone[n] and gone[n] != before[n]]
        listings = {n: gone[n] for n in sent}
        if not is_full:
            for n in sent:
                if before[n] and gone[n][:len(before[n])] == before[n]:
                    listings[n] = gone[n][len(before[n]):]
        cluts = self.entries if is_full else {clut: {o[1:] for o in now if o[0] == clut} for clut, *_ in now}
        objects = [epoch.cues[k][3] for k in sorted(k for live in listings.values() for k in live)]
        shown = sum(1 for live in gone.values() if live)
        segments = ([11] if is_full else []) + [8 + 6 * shown] + [16 + 6 * len(listings[n]) for n in sent]
        segments += [8 + 6 * len(cluts[clut]) for clut in sorted(cluts)] + objects + [6]
        regions = [region for region, _ in epoch.regions.values()]
        nodes = len(regions) + shown + sum(map(len, self.listed.values()))
        nodes += len(self.entries) + sum(map(len, self.entries.values()))
        load = Load(tuple(segments), sum(epoch.regions[n][0].painted() for n in sent))
        return load, nodes, sum(region.pixel_bytes() for region in regions)


def planned(script, profile):
    """Tests the plan and the schedule; answers the time, the bytes and the done tick of each set."""
    if script.display[0] > profile.width or script.display[1] > profile.height:
        raise Refusal("plan DisplayTooLarge 2")
    sets = list(Plan(script).sets())
    for _, record, _, nodes, pixels in sets:
        if pixels > profile.pixels:
            raise Refusal(f"plan PixelFull {record} {pixels}")
        if nodes > profile.nodes:
            raise Refusal(f"plan CompositionFull {record} {nodes}")
    channel, told = Channel(profile, script.origin), []
    for tick, record, load, _, _ in sets:
        if load.size() > profile.coded:
            raise Refusal(f"schedule CodedFull {record} {load.size()}")
        if max(load.segments) > LONGEST_UNIT:
            raise Refusal(f"schedule SegmentFull {record} {max(load.segments)}")
        done = channel.send(load, tick)
        if done > tick:
            raise Refusal(f"schedule Late {record} {done} {tick}")
        told.append((tick, load.size(), done))
    return told


def refusal(text, font, profile):
    """The line with which the compiler refuses a script, or None."""
    try:
        planned(Reader(font).read(text), PROFILES[profile])
    except Refusal as line:
        return str(line)
    return None
