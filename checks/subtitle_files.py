"""Generated subtitle files, for converter.py beside this file: kinds of cues, and the bytes of each format.

A cue is (start and end in milliseconds, lines, whether it stands at the top); a line is a list of (text, italic,
colour's name).
"""

import unicodedata
from xml.sax.saxutils import escape

CUES = 1_000
ENGLISH = ["I never said that.", "Where were you at noon?", "He took the last train to Köln.", "Nobody leaves this house tonight.",
           "Señor Muñoz will see you now.", "It's just… I thought you'd call.", "Wait. Did you hear something?", "“Trust me”, she said – and left.",
           "Two hundred and forty-seven euros!", "My brother lives in Århus.", "Grüß Gott! Schöne Grüße.", "Ça ne va pas, déjà vu.",
           "We have to talk about Łukasz.", "What a lovely coat, Miss O'Neill.", "Is this about the money?", "Yes.", "No!"]
GREEK = ["Καλησπέρα, κυρία Ελένη.", "Πού ήσουν χθες το βράδυ;", "Δεν ξέρω τι να πω."]
CYRILLIC = ["Добрый вечер, господа.", "Где вы были вчера ночью?", "Я ничего не знаю.", "Ёлка, їжак, љубав, ўсё."]
LATIN = ["Příliš žluťoučký kůň", "Zażółć gęślą jaźń", "Árvíztűrő tükörfúrógép", "Þórður, Ævar og Ðóra", "İstanbul, ığdır, şğç",
         "Ľúbim ťa, ňadraŕ", "ĀĒĪŌŪ ģķļņŗ ėęį", "Tiếng Việt đẹp"]
COLOURS = ["yellow", "cyan", "lime", "white", "magenta", "red"]
ODD = ["", "   ", "\t", "<b>bold", "</i>", "a < b > c", "I <3 you", "{\\an8}up", "{\\an5}middle", "{\\pos(3,4)}moved", "<font color=#ff0>",
       "<font color=\"nocolour\">x</font>", "<font color='rgb(1,2,300)'>y", "&amp; &lt;i&gt; &#8364; &bogus; &", "tab\there", "<unknown>tag</unknown>",
       "e\u0301 n\u0303 Z\u030c\u0323", "\u202bשלום\u202c", "日本語の字幕", "\U0001F600 smile", "zero\u200bwidth", "soft\u00adhyphen", "\ufeffmark", "No\u00a0break",
       "x" * 300, "\"quoted\", and, commas", "line\u2028separator", "{y:i}old", "{\\i1}half{\\i0} done", "<i></i>", "-", "♪ ♫ ♪", "1", "--> arrow", "\u0301",
       "<i><b><u>deep</u></b></i>", "<c.yellow.bg_blue>class</c>", "<v Fred>voice", "<00:00:01.000>karaoke", "<ruby>字<rt>ji</rt></ruby>", "a\\Nb\\hc"]


def line_of(random, text):
    """A line, now and then in another colour, italic, or of two kinds."""
    chance = random.random()
    if chance < 0.08:
        return [(text, True, None)]
    if chance < 0.2:
        return [(text, False, random.choice(COLOURS[:3]))]
    if chance < 0.24 and " " in text:
        first, rest = text.split(" ", 1)
        return [(first + " ", False, "yellow"), (rest, True, None)]
    return [(text, False, None)]


def film(random, texts=ENGLISH, most=2, least_long=1_000):
    """Plausible cues: gaps of all sizes, also none, and overlaps of some frames."""
    cues, now = [], 2_000
    for _ in range(CUES):
        lasts = random.randint(least_long, 5_500)
        lines = [line_of(random, random.choice(texts)) for _ in range(random.randint(1, most))]
        if len(lines) == 2 and random.random() < 0.3:
            lines = [[("- " + text, italic, colour) if k == 0 else (text, italic, colour) for k, (text, italic, colour) in enumerate(line)]
                     for line in lines]
        cues.append((now, now + lasts, lines, random.random() < 0.08))
        chance = random.random()
        gap = 0 if chance < 0.2 else random.choice([1, 20, 40, 41, 80, 120]) if chance < 0.6 else random.randint(200, 6_000)
        now += lasts + (gap if chance < 0.95 else -random.randint(20, 380))
    return cues


def dense(random):
    """Cues of 40 to 900 thousandths of a second, one behind the other."""
    cues, now = [], 0
    for _ in range(CUES):
        lasts = random.choice([40, 80, 120, 200, 400, 900])
        cues.append((now, now + lasts, [line_of(random, random.choice(ENGLISH))], random.random() < 0.3))
        now += lasts + random.choice([0, 0, 40])
    return cues


def long(random):
    """Lines of up to six sentences, and many lines a cue."""
    cues, now = [], 1_000
    for _ in range(CUES):
        lasts = random.randint(1_500, 9_000)
        lines = [line_of(random, " ".join(random.choice(ENGLISH) for _ in range(random.randint(1, 6)))) for _ in range(random.randint(1, 3))]
        cues.append((now, now + lasts, lines, random.random() < 0.1))
        now += lasts + random.choice([0, 100, 700])
    return cues


def letters(random):
    return film(random, ENGLISH + GREEK + CYRILLIC + LATIN)


def greek(random):
    return film(random, ["Mr O'Neill, please.", "Yes.", "No!"] + GREEK)


def overlaps(random):
    """Cues of which up to a dozen are live at once, some of them twice the same."""
    cues = []
    for number in range(CUES):
        start = number * 700 + random.randint(0, 3_000)
        cues.append((start, start + random.randint(0, 8_000), [line_of(random, random.choice(ENGLISH))], random.random() < 0.3))
        if random.random() < 0.05:
            cues.append(cues[-1])
    return cues


def odd(random):
    """Texts that no one would write, and times likewise."""
    cues, now = [], 0
    for number in range(CUES):
        text = ODD[number % len(ODD)]
        lasts = random.choice([-500, 0, 1, 1_000, 3_000, 3_000, 700_000 if number % 100 == 7 else 2_000])
        cues.append((now, now + lasts, [[(text, False, None)]] + ([[("after", True, "red")]] if number % 3 == 0 else []), number % 11 == 0))
        now += max(lasts, 0) + random.choice([0, 1, 39, 40, 41, 1_000]) if number % 17 else 0
    cues.append((now + 36_000_000, now + 36_002_000, [[("ten hours later", False, None)]], False))
    cues.append((50 * 3_600_000, 50 * 3_600_000 + 2_000, [[("two days later", False, None)]], False))
    random.shuffle(cues)
    return cues


KINDS = {"film": film, "dense": dense, "long": long, "letters": letters, "greek": greek, "overlaps": overlaps, "odd": odd}
# The character tables of Tech 3264 with letters of other scripts.
TABLES = {"letters": (b"01", "iso8859_5"), "greek": (b"03", "iso8859_7")}


def stamp(time, comma):
    time = max(time, 0)
    return f"{time // 3_600_000:02}:{time // 60_000 % 60:02}:{time // 1_000 % 60:02}{comma}{time % 1_000:03}"


def tagged(line, colour_tag):
    out = ""
    for text, italic, colour in line:
        text = f"<i>{text}</i>" if italic else text
        out += colour_tag(colour, text) if colour else text
    return out


def subrip(cues, _):
    """With a byte order mark and lines that end with both characters, as editors of Windows write them."""
    out = ""
    for number, (start, end, lines, top) in enumerate(cues, 1):
        text = "\n".join(tagged(line, lambda colour, text: f'<font color="{colour}">{text}</font>') for line in lines)
        out += f"{number}\n{stamp(start, ',')} --> {stamp(end, ',')}\n" + ("{\\an8}" if top else "") + text + "\n\n"
    return b"\xef\xbb\xbf" + out.replace("\n", "\r\n").encode()


def webvtt(cues, _):
    out = "WEBVTT\n\nSTYLE\n::cue(.lime) { color: #00ff00; }\n\nNOTE made\n\n"
    for start, end, lines, top in cues:
        text = "\n".join(tagged(line, lambda colour, text: f"<c.{colour}>{text}</c>") for line in lines)
        out += f"{stamp(start, '.')} --> {stamp(end, '.')}" + (" line:10% align:center" if top else "") + f"\n{text}\n\n"
    return out.encode()


def ttml(cues, _):
    out = ('<?xml version="1.0" encoding="UTF-8"?>\n<tt xmlns="http://www.w3.org/ns/ttml" xmlns:tts="http://www.w3.org/ns/ttml#styling" '
           'xml:lang="en"><head><styling>')
    out += "".join(f'<style xml:id="{colour}" tts:color="{colour}"/>' for colour in COLOURS)
    out += ('<style xml:id="italic" tts:fontStyle="italic"/></styling><layout>'
            '<region xml:id="low" tts:origin="10% 10%" tts:extent="80% 80%" tts:displayAlign="after" tts:textAlign="center"/>'
            '<region xml:id="high" tts:origin="10% 10%" tts:extent="80% 80%" tts:displayAlign="before" tts:textAlign="center"/>'
            '</layout></head><body><div>\n')
    for start, end, lines, top in cues:
        rows = []
        for line in lines:
            row = ""
            for text, italic, colour in line:
                kept = "".join(letter for letter in text if letter >= " " or letter == "\t")
                styles = " ".join(([colour] if colour else []) + (["italic"] if italic else []))
                row += f'<span style="{styles}">{escape(kept)}</span>' if styles else escape(kept)
            rows.append(row)
        out += (f'<p begin="{stamp(start, ".")}" end="{stamp(end, ".")}" region="{"high" if top else "low"}">'
                + "<br/>".join(rows) + "</p>\n")
    return (out + "</div></body></tt>\n").encode()


def latin_bytes(text):
    """A text in ISO 6937; letters that it does not have are question marks."""
    from subtitles.readers.ebu_stl import LATIN as LETTERS, MARKS as ACCENTS
    bytes_of = {letter: byte for byte, letter in LETTERS.items()}
    marks = {mark: byte for byte, mark in ACCENTS.items() if mark}
    out = bytearray()
    for letter in text:
        base, *rest = unicodedata.normalize("NFD", letter)
        if letter < "\x7f":
            out += letter.encode()
        elif letter in bytes_of:
            out.append(bytes_of[letter])
        elif len(rest) == 1 and rest[0] in marks and base < "\x7f":
            out += bytes([marks[rest[0]]]) + base.encode()
        else:
            out += b"?"
    return bytes(out)


def stl(cues, kind):
    """Blocks of Tech 3264, the programme from 10:00:00:00 on."""
    table, name = TABLES.get(kind, (b"00", None))
    encode = (lambda text: text.encode(name, "replace")) if name else latin_bytes
    teletext = {"red": 1, "lime": 2, "yellow": 3, "magenta": 5, "cyan": 6, "white": 7}
    head = b"850STL25.011" + table + b"09" + b"made".ljust(32) + b" " * 176
    head = (head + b" " * 256)[:238] + b"%05d%05d001" % (len(cues), len(cues)) + b"40231" + b"10000000" + b"10000000" + b"11"
    blocks = [head.ljust(1024)[:1024]]

    def code(time):
        frames = 36_000 * 25 + max(time, 0) * 25 // 1_000
        return bytes([frames // 90_000 % 24, frames // 1_500 % 60, frames // 25 % 60, frames % 25])
    for number, (start, end, lines, top) in enumerate(cues):
        text = bytearray()
        for k, line in enumerate(lines):
            text += b"\x8a" if k else b""
            for words, italic, colour in line:
                shown = encode("".join(letter for letter in words if letter >= " "))
                text += (bytes([teletext[colour]]) if colour else b"") + (b"\x80" + shown + b"\x81" if italic else shown)
        pieces = [bytes(text[k:k + 112]) for k in range(0, len(text), 112)] or [b""]
        for k, piece in enumerate(pieces):
            extension = 0xFF if k == len(pieces) - 1 else k
            blocks.append(bytes([0, number & 255, number >> 8, extension, 0]) + code(start) + code(end)
                          + bytes([2 if top else 20, 2, 0]) + piece.ljust(112, b"\x8f"))
    return b"".join(blocks)


FORMATS = {"srt": subrip, "vtt": webvtt, "ttml": ttml, "stl": stl}
