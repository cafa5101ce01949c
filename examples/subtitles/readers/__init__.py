"""Readers of subtitle files. Each gives cues with times in seconds from the start of the programme."""

import re
from fractions import Fraction

from . import ebu_stl, subrip, ttml, webvtt

FORMATS = {
    "srt": ("SubRip", subrip.read),
    "vtt": ("WebVTT", webvtt.read),
    "stl": ("EBU STL", ebu_stl.read),
    "ttml": ("TTML", ttml.read),
}
MARKS = [(b"\xef\xbb\xbf", "utf-8-sig"), (b"\xff\xfe", "utf-16"), (b"\xfe\xff", "utf-16")]


class FormatFault(Exception):
    """A file that is no subtitle file of a known format."""


def text_of(data, encoding=None):
    """The text of a file, and how it was read: by its byte order mark, as UTF-8, else as Windows 1252."""
    for mark, name in MARKS:
        if data.startswith(mark):
            return data.decode(name, "replace"), name.removesuffix("-sig")
    if encoding:
        return data.decode(encoding, "replace"), encoding
    try:
        return data.decode("utf-8"), "utf-8"
    except UnicodeDecodeError:
        text = data.decode("utf-8", "replace")
    faults = text.count("\ufffd")
    letters = sum(letter > "\x7f" for letter in text) - faults
    # Letters of two bytes and more come about by chance in few places of another encoding.
    return (text, "utf-8 with faults") if letters > 4 * faults else (data.decode("cp1252", "replace"), "cp1252")


def format_of(data):
    """Which format a file has, by its first bytes."""
    if re.match(rb"...STL\d\d\.\d\d", data[:11], re.S):
        return "stl"
    head = text_of(data[:4096])[0].lstrip("\ufeff \t\r\n")
    if head.startswith("WEBVTT"):
        return "vtt"
    if head.startswith("<"):
        return "ttml"
    return "srt"


def begun(cues, begin, report):
    """The start of the programme, where most cues do not stand before it; else 0."""
    if 2 * sum(cue.start < begin for cue in cues) > len(cues):
        report.note("times before the start of the programme that the file tells: taken as they are")
        return Fraction(0)
    return begin


def read(data, report, encoding=None, options=None):
    """The cues of a file in order of their starts, the name of its format, and the time of its programme's start."""
    which, begin = format_of(data), Fraction(0)
    name, reader = FORMATS[which]
    try:
        if which == "stl":
            cues, begin = reader(data, report, encoding)
        elif which == "ttml":
            cues, begin = reader(data, report)
        else:
            text, encoding = text_of(data, encoding)
            name += f", {encoding}"
            cues = reader(text, report) if which == "srt" else reader(text, report, **(options or {}))
    except ValueError as fault:
        raise FormatFault(f"{name}: {fault}") from fault
    return sorted(cues, key=lambda cue: (cue.start, cue.end)), name, begun(cues, begin, report)
