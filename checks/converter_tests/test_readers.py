"""Readers: what each format says, and what files of the field have."""

import unittest
from dataclasses import replace
from fractions import Fraction

import paths  # noqa: F401
from subtitles import readers
from subtitles.cues import BOTTOM, CENTRE, LEFT, RIGHT, TOP, WHITE, Span
from subtitles.readers import ebu_stl
from subtitles.report import Report

YELLOW, CYAN, GREEN = (255, 255, 0), (0, 255, 255), (0, 255, 0)


def read(data, **options):
    """The cues with times counted from the start of the programme, the format's name, and the report."""
    report = Report()
    cues, name, begin = readers.read(data if isinstance(data, bytes) else data.encode(), report, **options)
    return [replace(cue, start=cue.start - begin, end=cue.end - begin) for cue in cues], name, report


def texts(data, **options):
    return [cue.text() for cue in read(data, **options)[0]]


class Kinds(unittest.TestCase):
    def test_format_is_told_by_the_first_bytes(self):
        self.assertEqual(readers.format_of(b"1\r\n00:00:01,000 --> 00:00:02,000\r\nA"), "srt")
        self.assertEqual(readers.format_of(b"\xef\xbb\xbfWEBVTT\n"), "vtt")
        self.assertEqual(readers.format_of(b'<?xml version="1.0"?><tt/>'), "ttml")
        self.assertEqual(readers.format_of(b"850STL25.01" + b" " * 2000), "stl")

    def test_letters_of_files_that_are_not_utf8(self):
        self.assertEqual(readers.text_of("é".encode("cp1252")), ("é", "cp1252"))
        self.assertEqual(readers.text_of("é".encode("utf-16")), ("é", "utf-16"))
        self.assertEqual(readers.text_of(b"\xef\xbb\xbf\xc3\xa9"), ("é", "utf-8"))
        self.assertEqual(readers.text_of("Я".encode("cp1251"), "cp1251"), ("Я", "cp1251"))

    def test_a_byte_that_is_wrong_in_a_file_of_utf8(self):
        text, name = readers.text_of("Grüße aus Köln, déjà vu, ".encode() + b"\xfc!")
        self.assertEqual((text, name), ("Grüße aus Köln, déjà vu, \ufffd!", "utf-8 with faults"))
        for text in ("Grüße aus Köln", "Äé ü", "Ça va"):
            self.assertEqual(readers.text_of(text.encode("cp1252")), (text, "cp1252"))

    def test_files_that_are_no_subtitles(self):
        for data in (b"", b"[Script Info]\nDialogue: 0,0:00:01.00,0:00:02.00,,A\n", bytes(range(256)) * 20, b"<sami></sami>", b"<p>",
                     b"850STL50.01" + b" " * 2000, b"850STL25.01"):
            with self.assertRaises(readers.FormatFault):
                read(data)


class SubRip(unittest.TestCase):
    def test_times_and_lines(self):
        cues, name, _ = read("1\r\n00:00:01,500 --> 00:01:02,040\r\nFirst\r\nsecond\r\n\r\n2\r\n01:00:00,000 --> 01:00:01,000\r\nB\r\n")
        self.assertEqual(name, "SubRip, utf-8")
        self.assertEqual([(cue.start, cue.end, cue.text()) for cue in cues],
                         [(Fraction(3, 2), Fraction(6204, 100), "First\nsecond"), (3600, 3601, "B")])

    def test_blank_line_in_a_text_and_missing_ones_between_cues(self):
        self.assertEqual(texts("1\n00:00:01,0 --> 00:00:02,0\nA\n\nB\n\n2\n00:00:03,0 --> 00:00:04,0\nC\n"), ["A\nB", "C"])
        self.assertEqual(texts("00:00:01.000-->00:00:02.000 X1:10 X2:20\nA\n\n00:00:03 --> 00:00:04\nB"), ["A", "B"])

    def test_a_number_that_is_text_stays(self):
        self.assertEqual(texts("1\n00:00:01,0 --> 00:00:02,0\nIn\n1984\n\n2\n00:00:03,0 --> 00:00:04,0\nB\n"), ["In\n1984", "B"])

    def test_tags(self):
        cues, _, report = read('1\n00:00:01,0 --> 00:00:02,0\n<i>a</i> b <font color="#ffff00">c</font><b>d</b>\n')
        self.assertEqual(cues[0].lines, [[Span("a", True), Span(" b "), Span("c", False, YELLOW), Span("d")]])
        self.assertEqual(report.counts["plain"], 1)

    def test_signs_that_are_no_tags(self):
        self.assertEqual(texts("1\n00:00:01,0 --> 00:00:02,0\nI <3 you, 1 < 2 > 0 &amp; &bogus;\n"), ["I <3 you, 1 < 2 > 0 & &bogus;"])

    def test_braces(self):
        def place(mark):
            cue = read("1\n00:00:01,0 --> 00:00:02,0\n" + mark + "A\n")[0][0]
            return cue.place, cue.align, cue.text()
        self.assertEqual(place(r"{\an8}"), (TOP, CENTRE, "A"))
        self.assertEqual(place(r"{\an1}"), (BOTTOM, LEFT, "A"))
        self.assertEqual(place(r"{\an9}"), (TOP, RIGHT, "A"))
        self.assertEqual(place(r"{\pos(1,2)}"), (BOTTOM, CENTRE, "A"))
        self.assertEqual(place("{Note}"), (BOTTOM, CENTRE, "{Note}A"))

    def test_braces_within_a_text(self):
        cues, _, report = read("1\n00:00:01,0 --> 00:00:02,0\n{\\an8\\i1}a{\\i0} {\\c&H00FFFF&}b{\\c}{\\b1}c{\\b0}{\\fs20}\\N{\\1c&HFFFF00&\\i1}d{\\r}e\n")
        self.assertEqual(cues[0].lines, [[Span("a", True), Span(" "), Span("b", False, YELLOW), Span("c")], [Span("d", True, CYAN), Span("e")]])
        self.assertEqual((cues[0].place, report.counts["plain"], report.counts["markup"]), (TOP, 1, 1))

    def test_tags_in_capitals_and_other_attributes(self):
        cues, _, _ = read('1\n00:00:01,0 --> 00:00:02,0\n<FONT SIZE="3" COLOR="#00FFFF">a</FONT><font bgcolor="red">b</font>'
                          '<font face="x" color=rgb(255,255,0)>c<br/>d</font>\n')
        self.assertEqual(cues[0].lines, [[Span("a", False, CYAN), Span("b"), Span("c", False, YELLOW)], [Span("d", False, YELLOW)]])

    def test_no_blank_line_between_cues(self):
        self.assertEqual(texts("1\n00:00:01,0 --> 00:00:02,0\nA\n2\n00:00:03,0 --> 00:00:04,0\nB\n7\n3\n00:00:05,0 --> 00:00:06,0\nC\n"),
                         ["A", "B\n7", "C"])

    def test_a_blank_line_behind_each_line(self):
        text = "1\n\n00:00:01,0 --> 00:00:02,0\n\nA\n\nB\n\n2\n\n00:00:03,0 --> 00:00:04,0\n\nC\n\n"
        self.assertEqual(texts(text), ["A\nB", "C"])

    def test_a_text_that_is_a_number_alone(self):
        self.assertEqual(texts("00:00:01,0 --> 00:00:02,0\n10\n\n00:00:03,0 --> 00:00:04,0\n9\n"), ["10", "9"])
        self.assertEqual(texts("1\n00:00:01,0 --> 00:00:02,0\n3\n\n2\n00:00:03,0 --> 00:00:04,0\n2\n\n3\n00:00:05,0 --> 00:00:06,0\nC\n"),
                         ["3", "2", "C"])

    def test_times_of_the_field(self):
        cues, _, _ = read("2\n00:00:05,0 --> 00:00:05,0\nB\n\n1\n0:00:01,2500 --> 00:00:02\nA\n\n3\n-00:00:01,500 --> 00:00:00,500\nC\n")
        self.assertEqual([(cue.start, cue.end, cue.text()) for cue in cues],
                         [(Fraction(-3, 2), Fraction(1, 2), "C"), (Fraction(5, 4), 2, "A"), (5, 5, "B")])

    def test_letters_are_composed_and_controls_are_gone(self):
        self.assertEqual(texts("1\n00:00:01,0 --> 00:00:02,0\ne\u0301\u200b\u00a0 x\u00ady\n"), ["é xy"])


class WebVTT(unittest.TestCase):
    HEAD = "WEBVTT - title\n\nSTYLE\n::cue(.loud) { background: red; color: yellow }\n::cue(v[voice=\"Ann\"]) { color: #0ff }\n\nNOTE no\ncue\n\n"

    def test_blocks_settings_and_times(self):
        cues, _, _ = read(self.HEAD + "one\n00:01.000 --> 00:02.000 line:0 align:start\nA\n\n01:00:00.500 --> 01:00:01.000 line:-2\nB &lt;\n")
        self.assertEqual([(cue.start, cue.place, cue.align, cue.text()) for cue in cues],
                         [(1, TOP, LEFT, "A"), (Fraction(7201, 2), BOTTOM, CENTRE, "B <")])

    def test_colours_of_classes_and_voices(self):
        cues, _, _ = read(self.HEAD + "00:01.000 --> 00:02.000\n<c.loud>A</c><v Ann>B</v><c.lime>C</c><00:01.500>D\n")
        self.assertEqual([(span.text, span.colour) for span in cues[0].lines[0]], [("A", YELLOW), ("B", CYAN), ("C", GREEN), ("D", WHITE)])

    def test_speakers_have_colours_of_their_own(self):
        text = "WEBVTT\n\n00:01.000 --> 00:02.000\n<v Tom>A\n<v Eve>B\n"
        cues, _, _ = read(text, options={"speakers": True})
        self.assertEqual([line[0].colour for line in cues[0].lines], [WHITE, YELLOW])

    def test_style_sheets(self):
        head = ("WEBVTT\n\nSTYLE\n/* ::cue { color: red } */\n::cue { color: lime; background-color: black }\n::cue(.one), ::cue(i) { color: #ff0 }\n"
                "\nSTYLE\n::cue(.leans){font-style:italic}\n::cue(#last){color:cyan}\n::cue([voice=Eve]) { color: aqua }\n\n")
        cues, _, _ = read(head + "00:01.000 --> 00:02.000\nA<c.one>B</c><i>C</i><c.leans>D</c><c.decade.yellow.bg_red>E</c><v Eve>F</v>\n\n"
                          "last\n00:03.000 --> 00:04.000\nG\n")
        self.assertEqual([tuple(span) for span in cues[0].lines[0]],
                         [("A", False, GREEN), ("B", False, YELLOW), ("C", True, YELLOW), ("D", True, GREEN), ("E", False, YELLOW), ("F", False, CYAN)])
        self.assertEqual(cues[1].lines, [[Span("G", False, CYAN)]])

    def test_no_blank_line_between_cues(self):
        text = "WEBVTT\n00:01.000 --> 00:02.000\nA\n00:03.000 --> 00:04.000\nB\n\nNOTE no\ncue\n00:05.000 --> 00:06.000\nC\n"
        self.assertEqual(texts(text), ["A", "B", "C"])

    def test_lines_of_the_settings(self):
        for line, place in (("0", TOP), ("7", TOP), ("8", BOTTOM), ("-1", BOTTOM), ("-16", TOP), ("10%,start", TOP), ("85.5%,end", BOTTOM), ("auto", BOTTOM)):
            cues, _, _ = read(f"WEBVTT\n\n00:01.000 --> 00:02.000 position:10% line:{line} size:80%\nA\n")
            self.assertEqual(cues[0].place, place, line)

    def test_header_with_other_lines_and_regions(self):
        text = ("\ufeffWEBVTT Kind: captions; Language: en\r\nX-TIMESTAMP-MAP=LOCAL:00:00:00.000,MPEGTS:900000\r\n\r\nREGION\r\nid:r\r\nlines:3\r\n\r\n"
                "1\r\n00:01.000 --> 100:00:02.000 region:r\r\n<lang en-GB>A</lang> <ruby>B<rt>b</rt></ruby> <b.x>C</b>\r\n")
        cues, _, report = read(text)
        self.assertEqual([(cue.start, cue.end, cue.text()) for cue in cues], [(1, 360_002, "A B C")])
        self.assertEqual(report.counts["plain"], 1)

    def test_no_header(self):
        with self.assertRaises(ValueError):
            readers.webvtt.read("00:01.000 --> 00:02.000\nA\n", Report())


class Stl(unittest.TestCase):
    @staticmethod
    def file(blocks, rate=b"25", table=b"00", kind=b"1", start=b"10000000"):
        head = bytearray(b" " * 1024)
        head[:16] = b"850STL" + rate + b".01" + kind + table + b"09"
        head[253:255], head[256:264] = b"23", start
        return bytes(head) + b"".join(blocks)

    @staticmethod
    def block(text, begin=(10, 0, 1, 5), end=(10, 0, 2, 0), number=0, extension=0xFF, row=20, justify=2, comment=0, state=0):
        return bytes([0, number, 0, extension, state, *begin, *end, row, justify, comment]) + text.ljust(112, b"\x8f")

    def test_times_count_from_the_start_of_the_programme(self):
        cues, name, _ = read(self.file([self.block(b"A\x8a\x8aB")]))
        self.assertEqual((name, cues[0].start, cues[0].end, cues[0].text()), ("EBU STL", Fraction(6, 5), 2, "A\nB"))

    def test_places(self):
        cues, _, _ = read(self.file([self.block(b"A", row=2, justify=1), self.block(b"B", row=22, justify=3)]))
        self.assertEqual({(cue.text(), cue.place, cue.align) for cue in cues}, {("A", TOP, LEFT), ("B", BOTTOM, RIGHT)})

    def test_colours_and_italics(self):
        cues, _, _ = read(self.file([self.block(b"\x0b\x0b\x03A\x06B\x0a\x8a\x80C\x81D")]))
        self.assertEqual(cues[0].lines, [[Span("A ", False, YELLOW), Span("B", False, CYAN)], [Span("C", True), Span("D")]])

    def test_extension_blocks_comments_and_user_data(self):
        blocks = [self.block(b"x" * 112, extension=0), self.block(b"y", extension=0xFE), self.block(b"z"), self.block(b"c", comment=1)]
        self.assertEqual(texts(self.file(blocks)), ["x" * 112 + "z"])

    def test_letters(self):
        self.assertEqual(ebu_stl.latin_text(b"K\xc8oln \xc2e\xcbc\xfb\xe1\xd5"), "Köln éçßÆ♪")
        self.assertEqual(texts(self.file([self.block("Добрый".encode("iso8859_5"))], table=b"01")), ["Добрый"])
        self.assertEqual(texts(self.file([self.block("Ελένη".encode("iso8859_7"))], table=b"03")), ["Ελένη"])

    def test_times_before_the_start_that_the_head_tells(self):
        cues, _, report = read(self.file([self.block(b"A", (0, 0, 1, 0), (0, 0, 2, 0))]))
        self.assertEqual((cues[0].start, len(report.notes)), (1, 1))

    def test_a_first_block_that_tells_of_the_file(self):
        zero = self.block(b"STORY: X LANG: EN", (0, 0, 0, 0), (0, 0, 0, 8))
        cues, _, report = read(self.file([zero, self.block(b"A", number=1), self.block(b"B", (10, 0, 3, 0), (10, 0, 4, 0), 2)]))
        self.assertEqual([(cue.start, cue.text()) for cue in cues][1:], [(Fraction(6, 5), "A"), (3, "B")])
        self.assertEqual((cues[0].end < 0, report.notes), (True, []))

    def test_a_programme_over_midnight(self):
        zero = self.block(b"STORY", (0, 0, 0, 0), (0, 0, 0, 8))
        blocks = [self.block(text, begin, end, number) for number, (text, begin, end) in enumerate(
            [(b"A", (23, 59, 0, 0), (23, 59, 2, 0)), (b"B", (23, 59, 59, 0), (0, 0, 1, 0)), (b"C", (0, 0, 2, 0), (0, 0, 3, 0))], 1)]
        cues, _, _ = read(self.file([zero] + blocks, start=b"23580000"))
        self.assertEqual([(cue.start, cue.end) for cue in cues][1:], [(60, 62), (119, 121), (122, 123)])
        self.assertEqual(cues[0].start, -86_280)

    def test_times_that_are_none(self):
        blocks = [self.block(b"A", end=(255, 255, 255, 255)), self.block(b"B", number=1), self.block(b"C", (10, 60, 0, 0), number=2)]
        cues, _, report = read(self.file(blocks))
        self.assertEqual(([cue.text() for cue in cues], report.counts["no_times"]), (["B"], 2))

    def test_cumulative_sets(self):
        def at(second):
            return 10, 0, second, 0
        blocks = [self.block(text, at(start), at(end), number, state=state) for number, (text, start, end, state) in enumerate(
            [(b"A", 1, 2, 1), (b"B", 2, 3, 2), (b"C", 3, 5, 3), (b"D", 6, 7, 0), (b"E", 8, 9, 1), (b"E\x8aF", 9, 10, 3)])]
        cues, _, _ = read(self.file(blocks))
        self.assertEqual([(cue.text(), cue.start, cue.end) for cue in cues],
                         [("A", 1, 5), ("B", 2, 5), ("C", 3, 5), ("D", 6, 7), ("E", 8, 9), ("E\nF", 9, 10)])

    def test_a_subtitle_whose_last_block_is_missing(self):
        blocks = [self.block(b"x", extension=0), self.block(b"y", number=1)]
        self.assertEqual(texts(self.file(blocks)), ["x", "y"])
        self.assertEqual(texts(self.file(blocks)[:-1]), ["x"])

    def test_controls_of_teletext(self):
        # Double height, which takes every second row, a box twice begun and ended, flash, and a background.
        text = b"\x0d\x07\x0b\x0bGood\x08evening\x0a\x0a\x8a\x8a\x0d\x1d\x02\x0b\x0bB\x84C\x85\x7f\x0a\x0a"
        cues, _, _ = read(self.file([self.block(text)]))
        self.assertEqual(cues[0].lines, [[Span("Good evening")], [Span("BC", False, GREEN)]])

    def test_marks_and_signs_of_latin_letters(self):
        self.assertEqual(ebu_stl.latin_text(b"\xc9u\xc8U\xcas\xcfz \xc2  \xd0 \xa9x\xb9 \xa4 \xe8\xf8"), "üÜs\u030až ´ — ‘x’ $ Łł")

    def test_other_tables(self):
        for table, letters in (("02", "مرحبا"), ("04", "שלום")):
            data = letters.encode("iso8859_6" if table == "02" else "iso8859_8")
            self.assertEqual(texts(self.file([self.block(data)], table=table.encode())), [letters])
        self.assertEqual(texts(self.file([self.block("Привет".encode("cp1251"))]), encoding="cp1251"), ["Привет"])

    def test_thirty_frames_and_open_subtitles(self):
        cues, _, _ = read(self.file([self.block(b"A", (10, 0, 1, 15), row=0), self.block(b"B", (10, 0, 1, 29), row=19)], rate=b"30", kind=b"0"))
        self.assertEqual([(cue.start, cue.place) for cue in cues], [(Fraction(3, 2), TOP), (1 + Fraction(29, 30), BOTTOM)])


class Ttml(unittest.TestCase):
    @staticmethod
    def file(body, more=""):
        return (f'<tt xmlns="http://www.w3.org/ns/ttml" xmlns:tts="http://www.w3.org/ns/ttml#styling" xmlns:ttp="http://www.w3.org/ns/ttml#parameter" {more}>'
                '<head><styling><style xml:id="y" tts:color="yellow"/><style xml:id="i" tts:fontStyle="italic" style="y"/></styling><layout>'
                '<region xml:id="low" tts:origin="10% 70%" tts:extent="80% 20%" tts:displayAlign="after" tts:textAlign="center"/>'
                '<region xml:id="high"><style tts:origin="10% 10%" tts:extent="80% 20%"/></region></layout></head>' + body + "</tt>")

    def test_times(self):
        body = ('<body><div begin="1s"><p begin="00:00:01.5" end="00:00:03">A</p><p begin="4s" dur="500ms">B</p>'
                '<p begin="00:00:05:05" end="10f">C</p></div></body>')
        cues, _, _ = read(self.file(body.replace('end="10f"', 'end="150f"'), 'ttp:frameRate="25"'))
        self.assertEqual([(cue.start, cue.end) for cue in cues], [(Fraction(5, 2), 4), (5, Fraction(11, 2)), (Fraction(31, 5), 7)])

    def test_styles_and_regions(self):
        body = '<body><div><p begin="0s" end="1s" region="high">A <span style="i">B</span><br/>\n C</p></div></body>'
        cue = read(self.file(body))[0][0]
        self.assertEqual((cue.place, cue.align), (TOP, CENTRE))
        self.assertEqual(cue.lines, [[Span("A "), Span("B", True, YELLOW)], [Span("C")]])
        self.assertEqual(read(self.file('<body><div><p begin="0s" end="1s" region="low">A</p></div></body>'))[0][0].place, BOTTOM)

    def test_spans_with_times(self):
        body = '<body><div><p><span begin="1s" end="3s">A</span><br/><span begin="2s" end="4s">B</span></p></div></body>'
        self.assertEqual([(cue.start, cue.end, cue.text()) for cue in read(self.file(body))[0]],
                         [(1, 2, "A"), (2, 3, "A\nB"), (3, 4, "B")])

    def test_start_of_the_programme(self):
        body = '<body><div><p begin="10:00:01:00" end="10:00:02:00">A</p></div></body>'
        more = 'ttp:frameRate="25" xmlns:ebuttm="urn:ebu:tt:metadata"><ebuttm:documentStartOfProgramme>10:00:00:00</ebuttm:documentStartOfProgramme'
        self.assertEqual(read(self.file(body, more))[0][0].start, 1)

    def test_faults(self):
        cue = '<body><div><p begin="1s" end="2s">A</p></div></body>'
        for data in (b"<html></html>", b"<tt><p></tt>", self.file('<body><div><p begin="soon" end="2s">A</p></div></body>').encode(),
                     *(self.file(cue, more).encode() for more in (
                         'ttp:frameRate="0"', 'ttp:tickRate="0"', 'ttp:frameRate="x"', 'ttp:frameRate="1/0"', 'ttp:frameRateMultiplier="1 0"'))):
            with self.assertRaises(readers.FormatFault):
                read(data)

    def starts(self, times, more):
        body = "".join(f'<p begin="{time}" dur="1s">A</p>' for time in times)
        return [cue.start for cue in read(self.file(f"<body><div>{body}</div></body>", more))[0]]

    def test_ticks_and_frames(self):
        self.assertEqual(self.starts(["15000000t"], 'ttp:tickRate="10000000"'), [Fraction(3, 2)])
        self.assertEqual(self.starts(["50t"], 'ttp:frameRate="25" ttp:subFrameRate="2"'), [1])
        self.assertEqual(self.starts(["2t", "30f", "0.5m", "0.01h"], ""), [1, 2, 30, 36])
        self.assertEqual(self.starts(["24f", "00:00:02:12"], 'ttp:frameRate="24" ttp:frameRateMultiplier="1000 1001"'),
                         [Fraction(1001, 1000), 2 + Fraction(1001, 2000)])

    def test_time_codes(self):
        more = 'ttp:timeBase="smpte" ttp:frameRate="30" ttp:frameRateMultiplier="1000 1001" ttp:dropMode='
        # Frame 1,800 is the first of minute 1: its code is 00:01:00:00 where none is dropped, and 00:01:00:02 where two are.
        self.assertEqual(self.starts(["00:01:00:00", "01:00:00:00"], more + '"nonDrop"'), [Fraction(60_060, 1000), Fraction(3_603_600, 1000)])
        self.assertEqual(self.starts(["00:01:00:02", "00:10:00:00"], more + '"dropNTSC"'), [Fraction(60_060, 1000), Fraction(17_982 * 1001, 30_000)])
        self.assertEqual(self.starts(["01:00:00:12"], 'ttp:timeBase="smpte" ttp:frameRate="25"'), [3600 + Fraction(12, 25)])

    def test_places_in_pixels_and_cells(self):
        def place(more, origin, extent, display):
            region = f'<region xml:id="r" tts:origin="{origin}" tts:extent="{extent}" tts:displayAlign="{display}"/></layout>'
            text = self.file('<body region="r"><div><p begin="0s" end="1s">A</p></div></body>', more).replace("</layout>", region)
            return read(text)[0][0].place
        screen = 'tts:extent="1920px 1080px"'
        self.assertEqual(place(screen, "192px 800px", "1536px 200px", "after"), BOTTOM)
        self.assertEqual(place(screen, "192px 60px", "1536px 200px", "after"), TOP)
        self.assertEqual(place(screen, "192px 60px", "1536px 900px", "before"), TOP)
        self.assertEqual(place("", "4c 12c", "24c 3c", "before"), BOTTOM)
        self.assertEqual(place('ttp:cellResolution="40 24"', "4c 2c", "32c 20c", "center"), BOTTOM)
        self.assertEqual(place('ttp:cellResolution="40 24"', "4c 2c", "32c 6c", "center"), TOP)
        self.assertEqual(place("", "10px 10px", "100px 100px", "after"), BOTTOM)

    def test_elements_count_before_their_region(self):
        text = self.file('<body style="y"><div region="r"><p begin="0s" end="1s">A<span tts:color="cyan">B</span></p></div></body>')
        text = text.replace("</layout>", '<region xml:id="r" tts:color="red" tts:fontStyle="italic" tts:textAlign="right"/></layout>')
        cue = read(text)[0][0]
        self.assertEqual((cue.lines, cue.align), ([[Span("A", True, YELLOW), Span("B", True, CYAN)]], RIGHT))

    def test_what_is_not_shown(self):
        body = ('<body><div tts:display="none"><p begin="0s" end="1s">A</p></div><div><metadata begin="x">no</metadata><p begin="1s" end="2s">'
                '<metadata>no</metadata>B<span tts:visibility="hidden">C<span tts:visibility="visible">D</span></span></p></div></body>')
        self.assertEqual(texts(self.file(body)), ["BD"])

    def test_bold_is_counted_and_spaces_are_kept(self):
        body = '<body><div><p begin="0s" end="1s" xml:space="preserve" tts:fontWeight="bold">A\nB  C</p><p begin="1s" end="2s">A\n  B</p></div></body>'
        cues, _, report = read(self.file(body))
        self.assertEqual([cue.text() for cue in cues], ["A\nB C", "A B"])
        self.assertEqual(report.counts["plain"], 1)

    def test_times_within_times(self):
        body = ('<body begin="10s"><div begin="1s" end="5s"><div begin="1s"><p begin="1s" end="9s">A<br/><span begin="1s" dur="500ms">B</span></p></div></div>'
                '<p begin="20s">no end</p></body>')
        cues, _, report = read(self.file(body))
        self.assertEqual([(cue.start, cue.end, cue.text()) for cue in cues],
                         [(13, 14, "A"), (14, Fraction(29, 2), "A\nB"), (Fraction(29, 2), 15, "A")])
        self.assertEqual(report.counts["no_times"], 1)

    def test_encodings_that_the_file_declares(self):
        text = self.file('<body><div><p begin="0s" end="1s">é</p></div></body>')
        for encoding in ("utf-8", "iso-8859-1", "windows-1252", "utf-16"):
            self.assertEqual(texts((f'<?xml version="1.0" encoding="{encoding}"?>' + text).encode(encoding)), ["é"], encoding)


if __name__ == "__main__":
    unittest.main()
