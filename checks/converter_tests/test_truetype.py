"""Smooth faces, where Pillow and DejaVu are installed, and what ffprobe tells of a video."""

import os
import subprocess
import sys
import unittest
from fractions import Fraction

import paths
from subtitles import bdf, colours, truetype
from subtitles.cues import Span
from subtitles.video import Video, video_in

try:
    import PIL
except ImportError:
    PIL = None
FONT = "/usr/share/fonts/truetype/dejavu/DejaVuSans.ttf"
CONDENSED = "/usr/share/fonts/truetype/dejavu/DejaVuSansCondensed-Bold.ttf"
WHITE, YELLOW = (255, 255, 255), (255, 255, 0)


class Videos(unittest.TestCase):
    def test_first_pts_rate_and_size(self):
        told = ('{"streams": [{"width": 720, "height": 576, "r_frame_rate": "25/1", "time_base": "1/90000", "start_pts": 129600}]}')
        self.assertEqual(video_in(told), Video(129_600, Fraction(25), 720, 576))
        told = '{"streams": [{"width": 1280, "height": 720, "r_frame_rate": "30000/1001", "time_base": "1/1000", "start_pts": 40}]}'
        self.assertEqual(video_in(told), Video(3_600, Fraction(30000, 1001), 1280, 720))
        for told in ('{"streams": []}', '{"streams": [{"width": 1, "height": 1, "r_frame_rate": "0/0"}]}'):
            with self.assertRaises(ValueError):
                video_in(told)


@unittest.skipUnless(os.path.exists(FONT), "DejaVu is not installed")
class Characters(unittest.TestCase):
    def test_characters_of_a_font_file(self):
        found = truetype.characters_of(FONT)
        self.assertTrue({ord(letter) for letter in "AäŁΩЯ€♪"} <= found)
        self.assertNotIn(0x65E5, found)

    def test_italic_beside_a_font(self):
        self.assertEqual(truetype.slanted("/nowhere/A-Regular.ttf"), "/nowhere/A-Regular.ttf")


@unittest.skipUnless(PIL and os.path.exists(FONT), "Pillow or DejaVu is not installed")
class Faces(unittest.TestCase):
    def test_codes_are_those_of_the_palette(self):
        for style in ("box", "outline"):
            for counts in ({WHITE: 1}, {WHITE: 2, YELLOW: 1}):
                face, palette = truetype.SmoothFace(FONT, 40, style), colours.smooth_palette(counts, style, 64)
                line = [Span("Äg "), Span("Wf", True, YELLOW)]
                picture = face.draw(line, palette)
                self.assertEqual((picture.width, picture.height), (face.line_width(line), 40))
                codes = set(code for row in picture.rows for code in row)
                ramps = {code for ramp in palette.ramps.values() for code in ramp}
                self.assertLessEqual(codes, ramps | set(palette.edge) | {palette.box})
                self.assertTrue(all(set(ramp) & codes for ramp in palette.ramps.values()))
                if style == "outline":
                    self.assertFalse(any(row[0] or row[-1] for row in picture.rows))

    def test_narrow_letters(self):
        wide, narrow = (truetype.SmoothFace(FONT, 40, "outline", squeeze) for squeeze in (1, 45 / 64))
        self.assertAlmostEqual(narrow.width("Subtitle") / wide.width("Subtitle"), 45 / 64, delta=0.02)


@unittest.skipUnless(PIL and os.path.exists(FONT), "Pillow or DejaVu is not installed")
class Fonts(unittest.TestCase):
    @staticmethod
    def made(font, rows, *ranges):
        words = [sys.executable, os.path.join(paths.EXAMPLES, "font_to_bdf.py"), font, str(rows), *ranges]
        return subprocess.run(words, stdout=subprocess.PIPE, check=True).stdout.decode("latin-1")

    def test_a_font_of_any_size(self):
        font = bdf.Font(self.made(FONT, 31, "1EA0-1EF9").split("\n"))
        self.assertEqual(font.box[1], 31)
        self.assertTrue({ord(letter) for letter in "~ÿſώЯё€♪ệ"} <= set(font.glyphs))
        # No letter is clipped: each has all rows of its box within the line.
        for glyph in font.glyphs.values():
            self.assertTrue(font.box[3] <= glyph.box[3] and glyph.box[1] + glyph.box[3] <= 31 + font.box[3])

    @unittest.skipUnless(os.path.exists(CONDENSED), "fonts-dejavu-extra is not installed")
    def test_fonts_of_the_examples_are_made_so(self):
        for rows in (24, 36):
            with open(os.path.join(paths.EXAMPLES, f"sans{rows}.bdf"), encoding="latin-1", newline="") as file:
                self.assertEqual(self.made(CONDENSED, rows), file.read())


if __name__ == "__main__":
    unittest.main()
