"""The program as it is called: options, what it tells, and what it refuses."""

import os
import subprocess
import sys
import tempfile
import unittest

import paths
from test_readers import Stl

PROGRAM = os.path.join(paths.EXAMPLES, "subtitles_to_script.py")
SUBRIP = "1\n00:00:01,000 --> 00:00:02,000\nGood évening.\n\n2\n10:00:02,000 --> 10:00:03,000\nMorning.\n"


class Program(unittest.TestCase):
    def setUp(self):
        folder = tempfile.TemporaryDirectory()
        self.addCleanup(folder.cleanup)
        self.folder = folder.name

    def at(self, name):
        return os.path.join(self.folder, name)

    def run_on(self, data, *options):
        """The status, what was written to both outputs, and the records of the script by their words."""
        with open(self.at("in"), "wb") as file:
            file.write(data if isinstance(data, bytes) else data.encode())
        ended = subprocess.run([sys.executable, PROGRAM, self.at("in"), self.at("out.csv"), *options], text=True,
                               stdout=subprocess.PIPE, stderr=subprocess.PIPE, check=False)
        rows = {}
        if ended.returncode == 0:
            with open(self.at("out.csv"), encoding="utf-8") as file:
                for line in file:
                    word, *cells = line.strip().split(",")
                    rows.setdefault(word, []).append(cells)
        return ended, rows

    def test_start_of_the_programme(self):
        tape = Stl.file([Stl.block(b"A", (10, 0, 1, 0), (10, 0, 2, 0))])
        for options, tick in (([], 90_000), (["--start", "10:00:00:00"], 90_000), (["--start", "09:59:59:12"], 90_000 + 13 * 3_600),
                              (["--first-pts", "126000"], 216_000)):
            self.assertEqual(self.run_on(tape, *options)[1]["cue"][0][0], str(tick), options)
        ended, rows = self.run_on(SUBRIP, "--start", "10:00:00")
        self.assertEqual([cells[0] for cells in rows["cue"]], ["180000"])
        self.assertIn("1 cues before the start of the programme: left out", ended.stdout)

    def test_a_first_cue_that_comes_late_is_told_of(self):
        ended, _ = self.run_on("1\n10:00:02,000 --> 10:00:03,000\nMorning.\n")
        self.assertIn("the first cue comes 10:00:02.000 after the video's first frame", ended.stdout)

    def test_a_limit_gives_a_second_script(self):
        ended, _ = self.run_on(SUBRIP)
        self.assertIn("out-2.csv: 9 records. dvbsub compile sd 256 1 ", ended.stdout)
        self.assertTrue(os.path.exists(self.at("out-2.csv")))

    def test_display_and_profile(self):
        _, rows = self.run_on(SUBRIP, "--profile", "hd", "--display", "1280x720")
        self.assertEqual(rows["display"], [["1280", "720"]])
        ended, _ = self.run_on(SUBRIP, "--display", "1920x1080")
        self.assertEqual(ended.returncode, 1)
        self.assertIn("larger than that of the profile sd: --profile names another", ended.stderr)

    def test_report(self):
        self.run_on(SUBRIP.replace("--> 00:00:02", "--> 00:00:01"), "--report", self.at("report"), "--font",
                    os.path.join(paths.EXAMPLES, "subtitle.bdf"))
        with open(self.at("report"), encoding="utf-8") as file:
            self.assertEqual(file.read(), "00:00:01.000  lengthened      Good évening.\n")

    def test_what_is_refused_is_told_in_one_line(self):
        for data, options in ((b"no subtitles", []), (SUBRIP, ["--start", "ten"]), (SUBRIP, ["--display", "0x0"]), (SUBRIP, ["--font", PROGRAM]),
                              (SUBRIP, ["--refresh", "0"]), (SUBRIP, ["--encoding", "no"]), (SUBRIP, ["--video", self.at("in")]),
                              (SUBRIP, ["--font", self.at("none.bdf")]), (b"WEBVTT\n\n", [])):
            ended, _ = self.run_on(data, *options)
            self.assertEqual((ended.returncode, ended.stdout), (1, ""), options)
            self.assertRegex(ended.stderr, r"\Asubtitles_to_script\.py: [^\n]+\n\Z")


if __name__ == "__main__":
    unittest.main()
