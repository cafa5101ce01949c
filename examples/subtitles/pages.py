"""From cues to pages: what stands at the top and at the bottom of the display, from frame to frame."""

import math
from dataclasses import dataclass, replace
from fractions import Fraction
from functools import cached_property

from .cues import BOTTOM, TOP

PLACES = (BOTTOM, TOP)
NEAR = Fraction(2, 5)       # Seconds: starts that are nearer become one, overlaps that are shorter are cut.
SHORTEST = Fraction(1, 2)   # Seconds that a cue is shown at least.
LONGEST = 54_000_000        # Ticks that a cue of a script may last.


@dataclass(frozen=True)
class Clock:
    """Frames a second, and the tick of frame 0."""

    rate: Fraction
    offset: int = 0

    def frame(self, seconds):
        return math.floor(seconds * self.rate + Fraction(1, 2))

    def frames(self, seconds):
        return max(1, math.ceil(seconds * self.rate))

    def tick(self, frame):
        return self.offset + math.floor(Fraction(frame) * 90_000 / self.rate + Fraction(1, 2))

    def frame_from(self, tick):
        """The first frame whose tick is not earlier."""
        frame = math.ceil(Fraction(tick - self.offset) * self.rate / 90_000)
        return frame - 1 if self.tick(frame - 1) >= tick else frame

    def seconds(self, frame):
        return Fraction(frame) / self.rate


@dataclass
class Laid:
    """A cue with its times in frames and its lines drawn."""

    start: int
    end: int
    lines: list
    place: str
    text: str


@dataclass(eq=False)
class Page:
    """Lines that are shown together at one place. Two pages are the same only where they are one."""

    place: str
    lines: tuple
    text: str

    @cached_property
    def segments(self):
        """The bytes of its objects' segments."""
        return tuple(line.segment for line in self.lines)

    def again(self):
        return Page(self.place, self.lines, self.text)


@dataclass
class Step:
    """A frame from which on other pages are shown: one or None at each of PLACES. `asked` is the frame of the file."""

    frame: int
    shown: tuple
    asked: int


def batches_of(cues, most_lines, near):
    """Groups of cues that begin almost at once and have room together."""
    batches = []
    for cue in cues:
        batch = batches[-1] if batches else []
        lines = sum(len(other.lines) for other in batch) + len(cue.lines)
        if batch and cue.start - batch[0].start < near and lines <= most_lines:
            batch.append(cue)
        else:
            batches.append([cue])
    return batches


def end_of(batches):
    return max(cue.end for batch in batches for cue in batch)


def chains_of(batches, near):
    """Groups of batches that begin almost at once too, before all cues of those before have ended."""
    chains = []
    for batch in batches:
        start = batch[0].start
        if chains and start - chains[-1][0][0].start < near and start < end_of(chains[-1]):
            chains[-1].append(batch)
        else:
            chains.append([batch])
    return chains


def begun_together(cues, most_lines, clock, report):
    """Cues of one place of which those that begin almost at once begin together, where their lines have room; else they
    share their time, one behind the other, as their letters ask."""
    out, near = [], clock.frames(NEAR)
    batches = batches_of([replace(cue) for cue in cues], most_lines, near)
    for batch in batches:
        end, start = end_of([batch]), batch[0].start
        for cue in batch if batch[-1].start != start else ():
            if cue.start != start:
                report.add("begun_together", clock.seconds(cue.start), cue.text)
            cue.start, cue.end = start, end
    for chain in chains_of(batches, near):
        start, end, letters = chain[0][0].start, end_of(chain), [sum(len(cue.text) for cue in batch) for batch in chain]
        marks = [start + (end - start) * sum(letters[:k]) // max(1, sum(letters)) for k in range(len(chain) + 1)]
        for batch, *span in zip(chain, marks, marks[1:]) if len(set(marks)) == len(marks) > 2 else ():
            for cue in batch:
                report.add("in_turn", clock.seconds(cue.start), cue.text)
                cue.start, cue.end = span
    for batch in batches:
        out += batch
    return out


def apart(cues, clock, report):
    """Cues of one place of which short overlaps are cut, and short ones are longer where there is room."""
    near, shortest = clock.frames(NEAR), clock.frames(SHORTEST)
    for cue, later in zip(cues, cues[1:] + [None]):
        if later and 0 < cue.end - later.start < near and cue.start < later.start:
            cue.end = later.start
            report.add("cut", clock.seconds(cue.start), cue.text)
        if cue.end - cue.start < shortest:
            room = cue.start + shortest
            if later and cue.start < later.start and cue.end <= later.start:
                room = min(room, later.start)
            if room > cue.end:
                cue.end = room
                report.add("lengthened", clock.seconds(cue.start), cue.text)
    return cues


def without_doubles(cues, clock, report):
    out, known = [], set()
    for cue in cues:
        key = (cue.start, cue.end, cue.text)
        if key in known:
            report.add("doubled", clock.seconds(cue.start), cue.text)
            continue
        known.add(key)
        out.append(cue)
    return out


def stays(cues, place, most_lines, clock, report):
    """The pages of a place with their times: the cues that are live, the older ones above; the oldest are cut where
    there is no room for all."""
    marks = sorted({frame for cue in cues for frame in (cue.start, cue.end)})
    waiting, live, out = sorted(cues, key=lambda cue: cue.start)[::-1], [], []
    for mark, after in zip(marks, marks[1:] + [None]):
        live = [cue for cue in live if cue.end > mark]
        while waiting and waiting[-1].start == mark:
            live.append(waiting.pop())
        while len(live) > 1 and sum(len(cue.lines) for cue in live) > most_lines:
            oldest = live.pop(0)
            report.add("left_out" if oldest.start == mark else "cut", clock.seconds(oldest.start), oldest.text)
        if live and after is not None:
            for cue in live if len(live) > 1 else ():
                if not cue.text.endswith("\0"):
                    report.add("together", clock.seconds(cue.start), cue.text)
                    cue.text += "\0"
            lines = tuple(line for cue in live for line in cue.lines)
            text = "\n".join(cue.text.rstrip("\0") for cue in live)
            out += in_pieces(Page(place, lines, text), mark, after, clock, report)
    return out


def in_pieces(page, start, end, clock, report):
    """A page with its times, in pieces that are not too long."""
    most = clock.frame_from(clock.offset + LONGEST) - 1
    pieces = []
    while end - start > most:
        pieces.append((start, start + most, page))
        start, page = start + most, page.again()
    if pieces:
        report.add("held", clock.seconds(pieces[0][0]), page.text)
    return pieces + [(start, end, page)]


def steps_of(stays_by_place):
    """The frames at which what is shown changes, with what is shown from there on."""
    changes = {}
    for place, stays_there in stays_by_place.items():
        number = PLACES.index(place)
        for start, end, page in stays_there:
            changes.setdefault(end, {}).setdefault(number, None)
            changes.setdefault(start, {})[number] = page
    shown, steps = [None, None], []
    for frame in sorted(changes):
        for number, page in changes[frame].items():
            shown[number] = page
        steps.append(Step(frame, tuple(shown), frame))
    return steps


def pages_of(cues, most_lines, clock, report):
    """The steps of all cues."""
    by_place = {}
    for place in PLACES:
        there = sorted((cue for cue in cues if cue.place == place), key=lambda cue: (cue.start, cue.end))
        if there:
            there = begun_together(without_doubles(there, clock, report), most_lines, clock, report)
            by_place[place] = stays(apart(there, clock, report), place, most_lines, clock, report)
    return steps_of(by_place)
