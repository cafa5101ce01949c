"""The whole way from the bytes of a subtitle file to scripts."""

from dataclasses import dataclass, replace
from fractions import Fraction

from .layout import Layout
from .pages import Clock, pages_of
from .report import Report, stamp
from .script import scripts_of
from .sending import PROFILES
from .timing import RefreshTooShort

LONGEST_REFRESH = 60
SMALLEST = 14       # Pixels of a line.
FAR = 3_600         # Seconds: a first cue that comes so late may be counted from a tape's start.


class Unfit(Exception):
    """What is asked for does not go together, whatever the subtitles are."""


@dataclass
class Wishes:
    """What a script should be like."""

    profile: str = "sd"
    display: tuple = None
    rate: Fraction = Fraction(25)
    offset: int = 0
    refresh: int = 5
    margin: int = 5
    most_lines: int = 3
    style: str = "box"
    clear: int = 64
    start: Fraction = Fraction(0)

    def size(self):
        profile = PROFILES[self.profile]
        return self.display or (profile.width, profile.height)


def usable(cues, start, report):
    """The cues with text and times within the programme, counted from its start."""
    out = []
    for cue in cues:
        cue = replace(cue, start=cue.start - start, end=cue.end - start)
        if not cue.lines:
            report.add("no_text", cue.start)
        elif cue.end < cue.start:
            report.add("no_times", cue.start, cue.text())
        elif cue.end <= 0 and cue.start < 0:
            report.add("before_start", cue.start, cue.text())
        else:
            out.append(replace(cue, start=max(cue.start, Fraction(0))))
    if out and min(cue.start for cue in out) >= FAR:
        report.note(f"the first cue comes {stamp(min(cue.start for cue in out))} after the video's first frame: "
                    "--start names another time of that frame")
    return out


def with_room(cues, face, wishes, clock, report):
    """The layout and the steps whose regions the pixel buffer has room for: with smaller letters, or fewer lines."""
    profile, (width, height) = PROFILES[wishes.profile], wishes.size()
    most_lines = wishes.most_lines
    while True:
        own = report.copy()
        layout = Layout(face, wishes.style, wishes.clear, (width, height), wishes.margin, most_lines)
        steps = pages_of(layout.lay(cues, clock, own), most_lines, clock, own)
        regions = [region for region in layout.regions_of(steps) if region]
        need = sum(region.pixel_bytes() for region in regions)
        rows = sum(region.height for region in regions)
        if need <= profile.pixels and rows <= height - 2 * layout.rim:
            return layout, steps, own
        if face.is_smooth and face.height - 2 >= SMALLEST:
            face = face.smaller(face.height - 2)
            report.notes = [note for note in report.notes if not note.startswith("lines of")]
            report.note(f"lines of {face.height} pixels, so that the regions fit")
        elif most_lines > 1:
            most_lines -= 1
            report.notes = [note for note in report.notes if not note.startswith("at most")]
            report.note(f"at most {most_lines} lines at a place, so that the regions fit")
        else:
            raise Unfit(f"the font is too large: the regions need {need} bytes of {profile.pixels} and {rows} rows")


def convert(cues, face, wishes, report=None):
    """The texts of the scripts of some cues, and the report."""
    report = report or Report()
    profile, (width, height) = PROFILES[wishes.profile], wishes.size()
    if width > profile.width or height > profile.height:
        raise Unfit(f"a display of {width} by {height} is larger than that of the profile {wishes.profile}: --profile "
                    f"names another, and --display a smaller one")
    clock = Clock(wishes.rate, wishes.offset)
    cues = usable(cues, wishes.start, report)
    layout, steps, report = with_room(cues, face, wishes, clock, report)
    if not steps:
        begun = f" that ends after the first frame's time, {stamp(wishes.start)}: --start names another" if wishes.start else ""
        raise Unfit(f"there is no cue with text{begun}")
    for refresh in range(wishes.refresh, LONGEST_REFRESH + 1):
        own = report.copy()
        try:
            scripts = scripts_of([replace(step) for step in steps], layout, profile, refresh, clock, own)
        except RefreshTooShort:
            continue
        if refresh != wishes.refresh:
            own.note(f"a page is sent again after {refresh} seconds: {wishes.refresh} are too few for its size")
        if not scripts:
            raise Unfit("there is no time to send any text")
        return [script.text(layout) for script in scripts], own
    raise Unfit("no refresh of up to a minute is long enough for these pictures")
