"""The compiler's rules: the examples of docs/FORMATS.md, and sets whose bytes and ticks are worked by hand."""

import os
import re
import unittest

import paths
from subtitles import rules
from subtitles.bdf import Font

FONT = Font(("STARTFONT 2.1\nFONTBOUNDINGBOX 3 4 0 -1\nSTARTCHAR A\nENCODING 65\nDWIDTH 3 0\nBBX 2 3 0 0\nBITMAP\n40\nC0\n40\n"
             "ENDCHAR\nENDFONT\n").split("\n"))
HEAD = ["origin,0", "display,40,30", "refresh,5", "epoch,90000", "region,0,0,0,20,20,4,0", "picture,a,4,2,1,3F"]


def examples():
    """The rows of the tables of refusals with an example: its records, and the line."""
    with open(os.path.join(paths.TOP, "docs", "FORMATS.md"), encoding="utf-8") as file:
        text = file.read().split("### How a script is refused")[1].split("## Fonts")[0]
    for row in text.splitlines():
        cells = row.replace(r"\|", "").split(" | ")
        if row.startswith("|") and len(cells) >= 4:
            records = re.findall("`([^`]*)`", cells[-2])
            line = re.findall(r"`(script \d+ .*)`", cells[-1])
            if records and line and "byte FF" not in cells[-2]:
                yield records, line[0]


class Refusals(unittest.TestCase):
    def test_examples_of_the_document(self):
        count = 0
        for records, line in examples():
            lines = records if records[0].startswith("origin") else HEAD + records
            with self.subTest(records=records):
                self.assertEqual(rules.refusal("\n".join(lines) + "\n", FONT, "sd"), line)
            count += 1
        self.assertGreater(count, 30)

    def test_plan_and_schedule(self):
        for records, line in [
                (["origin,0", "display,1920,1080", "refresh,5", "epoch,90000"], "plan DisplayTooLarge 2"),
                (["origin,0", "display,720,576", "refresh,5", "epoch,900000", "region,0,0,0,720,576,2,0"], "plan PixelFull 4 103680"),
                (["origin,0", "display,4,2", "refresh,5", "epoch,58", "region,0,0,0,4,2,8,0"], "schedule Late 4 59 58")]:
            self.assertEqual(rules.refusal("\n".join(records), None, "sd"), line)

    def test_a_script_without_faults(self):
        self.assertIsNone(rules.refusal("\n".join(HEAD + ["cue,90000,180000,0,0,0,7,8,A"]), FONT, "sd"))


class Sets(unittest.TestCase):
    def test_three_cues_of_one_pixel(self):
        text = ("origin,0\ndisplay,8,8\nrefresh,5\nepoch,90000\nregion,0,0,0,8,8,4,0\npicture,a,4,1,1,3\n"
                "place,90000,360000,0,0,0,solid,a\nplace,180000,450000,0,1,0,solid,a\nplace,270000,450000,0,2,0,solid,a\n")
        # An object: 13, a row of 4 bytes, an empty field of 1, so 18. The first set: 17, display 11, page 14, region 22, object 18,
        # end 6: 88, done at 88 + 1. The second and third without the display; the fourth has both cues; the fifth the page alone.
        self.assertEqual(rules.planned(rules.Reader(None).read(text), rules.PROFILES["sd"]),
                         [(90000, 88, 89), (180000, 77, 90078), (270000, 77, 180078), (360000, 101, 270102), (450000, 31, 360031)])

    def test_refreshes(self):
        text = ("origin,0\ndisplay,8,8\nrefresh,1\nepoch,90000\nregion,0,0,0,8,8,4,0\npicture,a,4,1,1,3\n"
                "place,90000,273601,0,0,0,solid,a\n")
        sets = rules.planned(rules.Reader(None).read(text), rules.PROFILES["sd"])
        # 90,000 further on is 180,000; 270,000 is no more than 3,600 before the end, and 273,601 is.
        self.assertEqual([tick for tick, *_ in sets], [90000, 180000, 270000, 273601])
        sets = rules.planned(rules.Reader(None).read(text.replace("273601", "273600")), rules.PROFILES["sd"])
        self.assertEqual([tick for tick, *_ in sets], [90000, 180000, 273600])


if __name__ == "__main__":
    unittest.main()
