"""EBU STL files (Tech 3264): a block of 1,024 bytes on the programme, then blocks of 128 bytes with texts."""

import unicodedata
from fractions import Fraction

from ..colours import TELETEXT
from ..cues import BOTTOM, CENTRE, LEFT, RIGHT, TOP, WHITE, Cue, Span, lines_of

HEAD, BLOCK, TEXT = 1024, 128, 112
NEW_LINE, UNUSED = 0x8A, 0x8F
FIRST, BETWEEN, LAST = 1, 2, 3      # Of a cumulative set.
DAY = 86_400
# Character code tables 01 to 04; table 00 is ISO 6937.
TABLES = {b"01": "iso8859_5", b"02": "iso8859_6", b"03": "iso8859_7", b"04": "iso8859_8"}
MARKS = dict(zip(range(0xC1, 0xD0), (
    "\u0300", "\u0301", "\u0302", "\u0303", "\u0304", "\u0306", "\u0307", "\u0308", "\u0308", "\u030a", "\u0327", "",
    "\u030b", "\u0328", "\u030c")))
# A mark before a space stands by itself.
ALONE = dict(zip(MARKS.values(), "`´^~¯˘˙¨¨˚¸ ˝˛ˇ"))
LATIN = {
    0xA0: "\u00a0", 0xA1: "¡", 0xA2: "¢", 0xA3: "£", 0xA4: "$", 0xA5: "¥", 0xA6: "#", 0xA7: "§", 0xA8: "¤", 0xA9: "‘",
    0xAA: "“", 0xAB: "«", 0xAC: "←", 0xAD: "↑", 0xAE: "→", 0xAF: "↓", 0xB0: "°", 0xB1: "±", 0xB2: "²", 0xB3: "³",
    0xB4: "×", 0xB5: "µ", 0xB6: "¶", 0xB7: "·", 0xB8: "÷", 0xB9: "’", 0xBA: "”", 0xBB: "»", 0xBC: "¼", 0xBD: "½",
    0xBE: "¾", 0xBF: "¿", 0xD0: "—", 0xD1: "¹", 0xD2: "®", 0xD3: "©", 0xD4: "™", 0xD5: "♪", 0xD6: "¬", 0xD7: "¦",
    0xDC: "⅛", 0xDD: "⅜", 0xDE: "⅝", 0xDF: "⅞", 0xE0: "Ω", 0xE1: "Æ", 0xE2: "Đ", 0xE3: "ª", 0xE4: "Ħ", 0xE6: "Ĳ",
    0xE7: "Ŀ", 0xE8: "Ł", 0xE9: "Ø", 0xEA: "Œ", 0xEB: "º", 0xEC: "Þ", 0xED: "Ŧ", 0xEE: "Ŋ", 0xEF: "ŉ", 0xF0: "ĸ",
    0xF1: "æ", 0xF2: "đ", 0xF3: "ð", 0xF4: "ħ", 0xF5: "ı", 0xF6: "ĳ", 0xF7: "ŀ", 0xF8: "ł", 0xF9: "ø", 0xFA: "œ",
    0xFB: "ß", 0xFC: "þ", 0xFD: "ŧ", 0xFE: "ŋ",
}


def latin_text(data):
    """The text of bytes of ISO 6937: a mark stands before its letter."""
    out, mark = [], ""
    for byte in data:
        if byte in MARKS:
            mark = MARKS[byte]
            continue
        letter = chr(byte) if byte < 0x80 else LATIN.get(byte, "")
        out.append(ALONE[mark] if mark and letter == " " else unicodedata.normalize("NFC", letter + mark))
        mark = ""
    return "".join(out)


def decoder_of(table, encoding):
    """How bytes of letters are read."""
    name = encoding or TABLES.get(table)
    return (lambda data: data.decode(name, "replace")) if name else latin_text


def spans_of(data, decode, report):
    """The spans of a text field: letters, new lines, italics, and colours of teletext."""
    spans, letters, italic, colour = [], bytearray(), False, WHITE

    def put(more=""):
        if letters or more:
            spans.append(Span(decode(bytes(letters)) + more, italic, colour))
        letters.clear()
    for byte in data:
        if 0x20 <= byte < 0x7F or byte >= 0xA0:
            letters.append(byte)
        elif byte == NEW_LINE:
            # Colours of teletext hold to the end of their row.
            put("\n")
            colour = WHITE
        elif byte in (0x80, 0x81):
            put()
            italic = byte == 0x80
        elif byte < 0x08:
            put(" ")
            colour = TELETEXT[byte] if byte else WHITE
        elif byte < 0x20:
            # Each control of teletext takes the place of a space.
            put(" ")
        elif byte == 0x82:
            report.add("plain")
    put()
    return spans


def seconds_of(code, rate):
    """The seconds of a time code of four bytes."""
    hours, minutes, seconds, frames = code
    return Fraction((hours * 60 + minutes) * 60 + seconds) + Fraction(frames, rate)


def is_code(code):
    """Whether four bytes are a time code."""
    return code[0] < 24 and code[1] < 60 and code[2] < 60


def start_of(head, rate):
    """The start of the programme (TCP), or 0 where it is none."""
    digits = head[256:264]
    return seconds_of([int(digits[k:k + 2]) for k in range(0, 8, 2)], rate) if digits.isdigit() else Fraction(0)


def blocks_of(data):
    """The blocks of each subtitle: the first one, and the texts of all of them. Comments and user data are left out."""
    subtitles, is_open, known = [], False, None
    for at in range(HEAD, len(data) - BLOCK + 1, BLOCK):
        block = data[at:at + BLOCK]
        extension, is_comment = block[3], block[15] == 1
        if extension == 0xFE or is_comment:
            continue
        text = block[16:].split(bytes([UNUSED]))[0]
        if is_open and block[:3] == known:
            subtitles[-1][1].extend(text)
        else:
            subtitles.append((block, bytearray(text)))
        is_open, known = extension != 0xFF, block[:3]
    return subtitles


def timed(subtitles, report):
    """The subtitles whose two times are time codes."""
    out = []
    for block, text in subtitles:
        if is_code(block[5:9]) and is_code(block[9:13]):
            out.append((block, text))
        else:
            report.add("no_times")
    return out


def cue_of(block, text, rate, rows, decode, report):
    """The cue of a subtitle's first block and its text."""
    place = TOP if block[13] * 2 < rows else BOTTOM
    align = {1: LEFT, 3: RIGHT}.get(block[14], CENTRE)
    lines = lines_of(spans_of(text, decode, report))
    return Cue(seconds_of(block[5:9], rate), seconds_of(block[9:13], rate), lines, place, align)


def over_midnight(cues):
    """Moves times by a day where they go back by half a day or more from one subtitle to the next."""
    day, last = 0, None
    for cue in cues:
        day += DAY if last is not None and cue.start + day <= last - DAY // 2 else 0
        cue.start, cue.end = cue.start + day, cue.end + day
        cue.end += DAY if cue.end <= cue.start - DAY // 2 else 0
        last = cue.start


def gathered(cues, states):
    """Lets each subtitle of a cumulative set (states 1, 2 and 3: its first, those between, its last) be shown until the
    set's end, or until the one that has its text once more."""
    end, later = None, None
    for cue, state in zip(reversed(cues), reversed(states)):
        if state == LAST:
            end = cue.end
        elif state in (FIRST, BETWEEN) and end is not None:
            is_again = later.lines[:len(cue.lines)] == cue.lines
            cue.end = later.start if is_again else max(cue.end, end)
        if state not in (BETWEEN, LAST):
            end = None
        later = cue


def read(data, report, encoding=None):
    """The cues of a file, and the time at which its programme starts."""
    if len(data) < HEAD:
        raise ValueError("it is shorter than 1,024 bytes")
    head = data[:HEAD]
    rate = int(head[6:8])
    if rate not in (24, 25, 30):
        raise ValueError(f"{rate} frames a second")
    decode = decoder_of(head[12:14], encoding)
    # On teletext rows 1 to 23 count, else as many as the head says.
    rows = 23 if head[11:12] in b"12" else int(head[253:255]) if head[253:255].isdigit() else 99
    found = timed(blocks_of(data), report)
    cues = [cue_of(block, text, rate, rows, decode, report) for block, text in found]
    over_midnight(cues)
    gathered(cues, [block[4] for block, _ in found])
    return cues, start_of(head, rate)
