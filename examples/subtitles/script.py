"""Writes scripts: pages with their ticks as records, and a new script where one would pass a limit."""

import csv
import io
from dataclasses import dataclass, field, replace

from .report import stamp
from .sending import EARLY, Sender
from .timing import Timing

MOST_PLACES = 4_096         # Places and cues of a script; as many pictures.
MOST_CODES = 268_435_456    # Of all pictures and texts.
MOST_BYTES = 67_108_864
MOST_TICKS = 3_240_000_000  # From the origin on.
MOST_COLOURS = 8_192
SPARE_TICKS = 60_000_000    # The longest cue, and what ends are moved by.
ROUND = 1 << 33             # Times are sent modulo this.
CLUT = 0


@dataclass
class Room:
    """How much of a script is used by the pages that it has so far."""

    origin: int
    places: int = 0
    codes: int = 0
    size: int = 4_096
    names: dict = field(default_factory=dict)
    counted: set = field(default_factory=set)

    def costs(self, pages):
        """Places, codes and bytes of some more pages."""
        lines = [line for page in pages for line in page.lines]
        new = {id(line): line for line in lines if line.codes is None or line.codes not in self.names}
        codes = sum(line.width * line.height for line in lines if line.codes is None)
        codes += sum(line.width * line.height for line in new.values() if line.codes is not None)
        size = sum(len(line.codes) for line in new.values() if line.codes is not None)
        size += sum(400 + 8 * len(line.text or "") for line in lines)
        return len(lines), codes, size

    def has(self, pages, tick):
        """Whether there is room for some pages from a tick on; they are then taken in, each once."""
        pages = [page for page in pages if page not in self.counted]
        places, codes, size = self.costs(pages)
        if (self.places + places > MOST_PLACES or self.codes + codes > MOST_CODES or self.size + size > MOST_BYTES
                or tick > self.origin + MOST_TICKS - SPARE_TICKS):
            return False
        self.places, self.codes, self.size = self.places + places, self.codes + codes, self.size + size
        self.counted.update(pages)
        for page in pages:
            for line in page.lines:
                if line.codes is not None:
                    self.names.setdefault(line.codes, f"p{len(self.names) + 1}")
        return True


@dataclass
class Script:
    """The records of a script."""

    origin: int
    refresh: int
    display: tuple
    regions: list
    entries: list
    depth: int
    stays: list
    marks: list
    names: dict

    def records(self, layout):
        """The records, the pages in order of their starts. Each picture stands before its first place."""
        first = min(start for start, _, _ in self.stays)
        yield ["origin", self.origin]
        yield ["display", *self.display]
        yield ["refresh", self.refresh]
        yield ["epoch", first]
        for region in self.regions:
            yield ["region", region.number, region.x, region.y, region.width, region.height, region.depth, CLUT]
        for number, entry in enumerate(self.entries):
            yield ["colour", first, CLUT, self.depth, number, *entry]
        events = [(start, 0, (start, end, page)) for start, end, page in self.stays]
        events += [(mark, 1, None) for mark in self.marks]
        written = set()
        for tick, _, stay in sorted(events, key=lambda event: event[:2]):
            if stay is None:
                # The same colour again: a named tick, from which on refreshes count anew.
                yield ["colour", tick, CLUT, self.depth, 0, *self.entries[0]]
            else:
                yield from self.page_records(layout, *stay, written)

    def page_records(self, layout, start, end, page, written):
        region = next(region for region in self.regions if region.number == layout.number_of(page.place))
        for line, x, y in layout.places_of(page, region):
            if line.codes is None:
                yield ["cue", start, end, region.number, x, y, line.code, layout.palette.box, line.text]
                continue
            name = self.names[line.codes]
            if name not in written:
                written.add(name)
                yield ["picture", name, self.depth, line.width, line.height, line.codes]
            yield ["place", start, end, region.number, x, y, "solid", name]

    def text(self, layout):
        out = io.StringIO()
        csv.writer(out, lineterminator="\n").writerows(self.records(layout))
        return out.getvalue()


def stays_of(taken, clock):
    """Each page with its ticks, from the steps that are sent; the last step shows nothing."""
    begun, out = {}, []
    for one in taken:
        tick = clock.tick(one.step.frame)
        for page in [page for page in begun if page not in one.step.shown]:
            out.append((begun.pop(page), tick, page))
        for page in one.step.shown:
            if page:
                begun.setdefault(page, tick)
    assert not begun
    return sorted(out, key=lambda stay: stay[:2])


def scripts_of(steps, layout, profile, refresh, clock, report):
    """The scripts of a programme: one, or several where one would pass a limit."""
    regions = layout.regions_of(steps)
    kept = [region for region in regions if region]
    # A place without pages has no region: what is shown there stands in no list of the sender either.
    held = [number for number, region in enumerate(regions) if region]
    steps = [replace(step, shown=tuple(step.shown[number] for number in held)) for step in steps]
    sender = Sender(profile, kept, len(layout.palette.entries), refresh)
    free, scripts = 0, []
    while steps:
        origin = max(0, free, clock.tick(steps[0].frame) - EARLY)
        # Times of a script may be written 2^33 lower, as they are sent.
        clock = replace(clock, offset=clock.offset - origin // ROUND * ROUND)
        free, origin = free % ROUND, origin % ROUND
        room = Room(origin)
        timing = Timing(sender, clock, origin, report, room.has)
        taken = timing.run(steps)
        stays = stays_of(taken, clock) if taken else []
        if stays:
            marks = [one.mark for one in taken if one.mark]
            scripts.append(Script(origin, refresh, (layout.width, layout.height), kept, layout.palette.entries,
                                  layout.palette.depth, stays, marks, room.names))
            channel = timing.taken[-1].state.channel
            free = origin + channel.slot * profile.step
            last = timing.taken[-1].step.frame
            for step in timing.rest:
                step.frame = max(step.frame, last)
        if timing.rest:
            report.note(f"a limit of a script is reached: from {stamp(clock.seconds(timing.rest[0].asked))} on "
                        "in the next one")
        steps = timing.rest
    return scripts
