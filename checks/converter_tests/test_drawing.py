"""Pictures, faces, colours and palettes: values worked by hand."""

import os
import unittest

import paths
from subtitles import bdf, colours, pictures
from subtitles.cues import Span
from subtitles.pictures import Picture

WHITE, YELLOW = (255, 255, 255), (255, 255, 0)


def font(name="subtitle.bdf"):
    with open(os.path.join(paths.EXAMPLES, name), encoding="latin-1") as file:
        return file.read().split("\n")


class Strings(unittest.TestCase):
    def test_bits_of_runs(self):
        two, zero = pictures.run_bits(2, False), pictures.run_bits(2, True)
        # One pixel 2 bits, ten by one code of 8, eleven as ten and one, 28 as 27 and one, 284 by one code of 16.
        self.assertEqual([two[n] for n in (1, 2, 3, 10, 11, 12, 28, 284)], [2, 4, 6, 8, 10, 12, 14, 16])
        self.assertEqual([zero[n] for n in (1, 2, 3, 11)], [4, 6, 8, 12])
        four, zero = pictures.run_bits(4, False), pictures.run_bits(4, True)
        self.assertEqual([four[n] for n in (1, 3, 4, 7, 8, 9, 24, 25, 280)], [4, 12, 12, 12, 16, 16, 16, 20, 20])
        self.assertEqual([zero[n] for n in (1, 2, 3, 9, 10)], [8, 8, 8, 8, 16])

    def test_bytes_of_a_segment(self):
        # Rows of 2 bits: 3 codes of 2 bits and an end of 6, 12 bits: 2 bytes, with type and end of line 4. Both fields are the
        # same, so the second is left out: 13 + 4, made even.
        self.assertEqual(Picture(3, 2, 2, (b"\1\2\3", b"\1\2\3")).segment_bytes(), 18)
        self.assertEqual(Picture(3, 2, 2, (b"\1\2\3", b"\3\2\1")).segment_bytes(), 22)

    def test_codes_are_the_shorter_of_runs_and_digits(self):
        self.assertEqual(Picture(8, 1, 4, (b"\x0a" * 8,)).codes(), "8*A")
        self.assertEqual(Picture(4, 1, 4, (b"\1\2\3\4",)).codes(), "1234")


class Fonts(unittest.TestCase):
    def test_glyphs_stand_on_the_base_line(self):
        small = bdf.Font(("STARTFONT 2.1\nFONTBOUNDINGBOX 3 4 0 -1\nSTARTCHAR A\nENCODING 65\nDWIDTH 3 0\nBBX 2 2 1 0\nBITMAP\n40\nC0\n"
                          "ENDCHAR\nENDFONT").split("\n"))
        self.assertEqual(small.ink("AA", 6), [0, 0b001001, 0b011011, 0])
        self.assertEqual(small.ink("AA", 4), [0, 0b0010, 0b0110, 0])

    def test_faults_of_fonts(self):
        for text in ("BDF", "STARTFONT 2.1", "STARTFONT 2.1\nSTARTCHAR A", "STARTFONT 2.1\nFONTBOUNDINGBOX 300 4 0 0\nENDFONT",
                     "STARTFONT 2.1\nFONTBOUNDINGBOX 3 4 0 0\nSTARTCHAR A\nENCODING 65\nDWIDTH 3 0\nBBX 2 1 0 0\nBITMAP\n4\nENDCHAR\nENDFONT"):
            with self.assertRaises(bdf.FontFault):
                bdf.Font(text.split("\n"))

    def test_examples_have_their_letters(self):
        for name, letters in (("television.bdf", "Aä~Öß"), ("sans24.bdf", "AäŁžΩώЯё€♪—"), ("sans36.bdf", "AäŁžΩώЯё€♪—")):
            face = bdf.BitmapFace(font(name))
            self.assertTrue(all(map(face.has, letters)), name)
        self.assertEqual(bdf.Font(font("sans24.bdf")).box[1], 24)


class Faces(unittest.TestCase):
    def test_text_and_picture_of_a_line_are_the_same(self):
        face, palette = bdf.BitmapFace(font()), colours.flat_palette({WHITE: 1, YELLOW: 1}, "box", 0)
        plain = face.draw([Span("Ab")], palette)
        self.assertEqual((plain.width, plain.height), (4 * 8, 14))
        face.is_text = lambda line: False
        self.assertEqual(face.draw([Span("Ab")], palette), plain)

    def test_colours_within_a_line(self):
        face, palette = bdf.BitmapFace(font()), colours.flat_palette({WHITE: 1, YELLOW: 1}, "box", 0)
        codes = [set(code for row in face.draw(line, palette).rows for code in row) for line in
                 ([Span("A"), Span("b", False, YELLOW)], [Span("A")])]
        self.assertEqual(codes, [{1, 2, 3}, {1, 2 if palette.ramps[WHITE] == [2] else 3}])

    def test_scale_and_outline(self):
        face = bdf.BitmapFace(font(), 3, "outline")
        palette = colours.flat_palette({WHITE: 1}, "outline", 0)
        picture = face.draw([Span("I")], palette)
        self.assertEqual((face.reach, picture.height, picture.height % 2), (1, 44, 0))
        self.assertEqual(set(code for row in picture.rows for code in row), {0, 1, 2})
        # The ink is three times as wide and high, and the outline one pixel around it.
        ink = sum(row.count(2) for row in picture.rows)
        self.assertEqual(ink, 9 * sum(bin(row).count("1") for row in face.font.ink("I", 8)))

    def test_italic_leans_to_the_right_at_the_top(self):
        face, palette = bdf.BitmapFace(font()), colours.flat_palette({WHITE: 1}, "box", 0)
        rows = face.draw([Span("I", True)], palette).rows
        inked = [row.index(2) for row in rows if 2 in row]
        self.assertEqual(rows[2].index(2) - rows[10].index(2), 8 // bdf.LEAN + 1)
        self.assertTrue(inked)


class Colours(unittest.TestCase):
    def test_names_and_numbers(self):
        for text, colour in (("#FF0", YELLOW), ("ffff00", YELLOW), ("rgb(255, 255, 0)", YELLOW), ("#ffff0080", YELLOW), ("Yellow", YELLOW),
                             ("rgba(255,255,0,128)", YELLOW), ("green", (0, 128, 0)), ("lime", (0, 255, 0)), ("no", None), ("#12", None)):
            self.assertEqual(colours.colour_of(text), colour, text)

    def test_entries(self):
        self.assertEqual(colours.entry_of(WHITE), (235, 128, 128, 0))
        self.assertEqual(colours.entry_of((0, 0, 0), 64), (16, 128, 128, 64))
        self.assertEqual(colours.entry_of((255, 0, 0)), (81, 240, 90, 0))

    def test_palettes_have_room(self):
        many = {(n, n, 255 - n): 20 - n for n in range(20)}
        for make, most in ((colours.flat_palette, 14), (colours.smooth_palette, 4)):
            for style in ("box", "outline"):
                for count in range(1, 20):
                    palette = make(dict(list(many.items())[:count]), style, 64)
                    self.assertLessEqual(len(palette.entries), 1 << palette.depth)
                    self.assertEqual(len(palette.ramps), min(count, most))
                    codes = [code for ramp in palette.ramps.values() for code in ramp] + palette.edge
                    self.assertEqual(len(codes), len(set(codes)))
                    self.assertTrue(all(0 < code < len(palette.entries) for code in codes))
                    self.assertTrue(all(0 <= part <= 255 for entry in palette.entries for part in entry))
                    self.assertTrue(all(entry[0] for entry in palette.entries))


if __name__ == "__main__":
    unittest.main()
