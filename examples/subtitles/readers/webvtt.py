"""WebVTT files: blocks parted by blank lines, times with settings, tags and what a style sheet says of letters."""

import re

from ..colours import colour_of
from ..cues import BOTTOM, CENTRE, LEFT, RIGHT, TOP, Cue, lines_of
from .marks import Look, Sheet, tagged_spans, voice_colours
from .subrip import seconds_of

TIME = r"(?:(\d+):)?(\d{1,2}):(\d{1,2})[.,](\d{1,3})"
TIMES = re.compile(rf"^\s*{TIME}\s*-->\s*{TIME}(.*)$")
RULE = re.compile(r"([^{}]+)\{([^{}]*)\}")
SELECTOR = re.compile(r"\s*(?:video)?\s*::cue(?:\(\s*(.*?)\s*\))?\s*")
VOICE = re.compile(r"<v(?:\.[^\s>]*)?\s+([^>]+)>")


def blocks_of(text):
    """The blocks of a file: they end at blank lines, and at a line of times that is not among their first two."""
    blocks = []
    for block in re.split(r"\n[ \t]*\n", re.sub("\r\n|\r", "\n", text)):
        lines, has_times = [], False
        for line in block.strip("\n").split("\n"):
            is_times = bool(TIMES.match(line))
            if is_times and (has_times or len(lines) > 1):
                blocks.append(lines)
                lines = []
            has_times = has_times or is_times
            lines.append(line)
        if any(line.strip() for line in lines):
            blocks.append(lines)
    return blocks


def sheet_of(text):
    """What the rules of STYLE blocks say of classes, voices, tags, cues by their names, and all cues."""
    colours, italics = {}, set()
    for selectors, body in RULE.findall(re.sub(r"/\*.*?\*/", "", text, flags=re.S)):
        found = re.search(r"(?<![-\w])color\s*:\s*([^;}]+)", body)
        colour = colour_of(found.group(1)) if found else None
        is_italic = re.search(r"font-style\s*:\s*(?:italic|oblique)", body)
        for selector in map(SELECTOR.fullmatch, selectors.split(",")):
            if not selector:
                continue
            key = re.sub(r"^[a-z]+(?=[.#])", "", selector.group(1) or "")
            voice = re.fullmatch(r"v?\[voice=[\"']?([^\"'\]]*)[\"']?\]", key)
            key = "v " + voice.group(1) if voice else key
            if colour:
                colours[key] = colour
            if is_italic:
                italics.add(key)
    return Sheet(colours, frozenset(italics))


def is_high(line):
    """Whether the value of the setting `line` is in the upper half: a part of the display, or lines from the top or,
    below 0, from the bottom."""
    number = re.match(r"(-?\d+(?:\.\d+)?)(%?)", line)
    if not number:
        return False
    value = float(number.group(1))
    return value < 50 if number.group(2) else 0 <= value < 8 or value < -8


def settings_of(text):
    """The place and the alignment that the settings of a cue ask for."""
    place, align = BOTTOM, CENTRE
    for word in text.split():
        name, _, value = word.partition(":")
        if name == "line" and is_high(value):
            place = TOP
        elif name == "align":
            align = {"start": LEFT, "left": LEFT, "end": RIGHT, "right": RIGHT}.get(value, CENTRE)
    return place, align


def cue_of(block, at, sheet, report):
    """The cue of a block whose times stand on line `at`."""
    *times, settings = TIMES.match(block[at]).groups()
    times = [part or "0" for part in times]
    start, end = seconds_of(*times[:4]), seconds_of(*times[4:])
    place, align = settings_of(settings)
    first = sheet.look(Look(), [""] + (["#" + block[at - 1].strip()] if at else []))
    spans = tagged_spans("\n".join(block[at + 1:]), report, every_tag=True, sheet=sheet, first=first)
    return Cue(start, end, lines_of(spans), place, align)


def read(text, report, speakers=False):
    """The cues of a file; with `speakers`, each voice has a colour of its own."""
    blocks = blocks_of(text.lstrip("\ufeff"))
    if not blocks or not blocks[0][0].startswith("WEBVTT"):
        raise ValueError("it does not begin with WEBVTT")
    sheet = sheet_of("\n".join("\n".join(block[1:]) for block in blocks[1:] if block[0].startswith("STYLE")))
    if speakers:
        names = list(dict.fromkeys(name.strip() for name in VOICE.findall(text)))
        sheet = Sheet({**voice_colours(names), **sheet.colours}, sheet.italics)
    cues = []
    for block in blocks:
        at = next((number for number, line in enumerate(block[:2]) if TIMES.match(line)), None)
        if at is not None:
            cues.append(cue_of(block, at, sheet, report))
    return cues
