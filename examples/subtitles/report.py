"""What was changed on the way from a subtitle file to a script, counted by kind."""

from collections import Counter

KINDS = {
    "no_times": "cues without usable times: left out",
    "no_text": "cues without text: left out",
    "before_start": "cues before the start of the programme: left out",
    "doubled": "cues that stand twice at the same time: once",
    "markup": "marks that are not known: left out",
    "plain": "bold, underlined or blinking letters: plain",
    "middle": "cues of the middle of the display: at the bottom",
    "replaced": "letters that the font does not have: replaced",
    "leftwards": "LINES FROM RIGHT TO LEFT, whose letters stand the wrong way round",
    "colours": "colours without an entry of their own: the nearest one",
    "wrapped": "lines wrapped",
    "cut_words": "words cut, since they are wider than a line",
    "parted": "cues with too many lines: shown in parts, one after the other",
    "lengthened": "cues made longer, to half a second",
    "cut": "cues cut where the next one begins",
    "together": "cues that overlap: shown together",
    "begun_together": "cues that began almost at once: begun together",
    "in_turn": "cues that began almost at once, with too many lines: shown one after the other",
    "held": "cues of more than ten minutes: sent in pieces",
    "joined": "ends moved to the next start, since there is no time for both",
    "ends_moved": "ends moved",
    "moved": "starts moved, since the display set before needs the time",
    "left_out": "TEXTS LEFT OUT, since there is no time to send them",
    "refreshes": "refreshes left out just before a cue",
}


class Report:
    """Counts by kind, and for each change its time and its text."""

    def __init__(self):
        self.counts = Counter()
        self.changes = []
        self.notes = []

    def add(self, kind, time=None, text="", count=1):
        """Counts a change; `time` is in seconds of the file."""
        self.counts[kind] += count
        self.changes.append((kind, time, text))

    def copy(self):
        other = Report()
        other.counts, other.changes, other.notes = self.counts.copy(), list(self.changes), list(self.notes)
        return other

    def note(self, text):
        self.notes.append(text)

    def lines(self):
        out = list(self.notes)
        for kind, words in KINDS.items():
            if self.counts[kind]:
                out.append(f"{self.counts[kind]:7} {words}")
        return out

    def details(self):
        """A line for each change, in order of time."""
        told = sorted(self.changes, key=lambda change: (change[1] is None, change[1] or 0))
        for kind, time, text in told:
            shown = "            " if time is None else stamp(time)
            yield f"{shown}  {kind:14}  {' / '.join(text.splitlines())}".rstrip()


def stamp(seconds):
    """Hours, minutes, seconds and thousandths."""
    thousandths = round(seconds * 1000)
    sign = "-" if thousandths < 0 else ""
    rest, part = divmod(abs(thousandths), 1000)
    return f"{sign}{rest // 3600:02}:{rest // 60 % 60:02}:{rest % 60:02}.{part:03}"
