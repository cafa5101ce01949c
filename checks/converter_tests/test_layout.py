"""Layout, pages, timing and scripts."""

import os
import unittest
from fractions import Fraction

import paths
from subtitles import rules
from subtitles.bdf import BitmapFace, Font
from subtitles.convert import Unfit, Wishes, convert
from subtitles.cues import BOTTOM, LEFT, TOP, Cue, Span
from subtitles.layout import letter_for, parts_of, wrapped
from subtitles.pages import Clock
from subtitles.report import Report

with open(os.path.join(paths.EXAMPLES, "subtitle.bdf"), encoding="latin-1") as FILE:
    LINES = FILE.read().split("\n")


def face():
    return BitmapFace(LINES)


def cue(start, end, text, place=BOTTOM, **more):
    return Cue(Fraction(start), Fraction(end), [[Span(line)] for line in text.split("\n")], place, **more)


def records(cues, **wishes):
    """The records of the one script of some cues, and the report; no record is refused."""
    wishes = Wishes(**{"offset": 900_000, **wishes})
    texts, report = convert(cues, face(), wishes)
    assert len(texts) == 1
    assert rules.refusal(texts[0], Font(LINES), wishes.profile) is None
    return [line.split(",") for line in texts[0].splitlines()], report


def times(cues, **wishes):
    """Start, end and text of the cues of a script, in seconds from the video's first frame."""
    found, report = records(cues, **wishes)
    return [(float(Fraction(int(row[1]) - 900_000, 90_000)), float(Fraction(int(row[2]) - 900_000, 90_000)), row[-1].strip())
            for row in found if row[0] == "cue"], report.counts


class Letters(unittest.TestCase):
    def test_letters_from_right_to_left_are_told_of(self):
        hebrew = BitmapFace([line.replace("ENCODING 65", "ENCODING 1488") for line in LINES])
        _, report = convert([cue(1, 2, "\u05d0b\nc")], hebrew, Wishes(offset=900_000))
        self.assertEqual(report.counts["leftwards"], 1)
        self.assertEqual(convert([cue(1, 2, "\u05d0b\nc")], face(), Wishes(offset=900_000))[1].counts["leftwards"], 0)

    def test_what_stands_for_a_letter(self):
        for letter, other in (("a", "a"), ("Ł", "L"), ("ş", "s"), ("ﬁ", "fi"), ("—", "-"), ("…", "..."), ("Я", "?"), ("é", "é")):
            self.assertEqual(letter_for(letter, face()), other)

    def test_wrapping_makes_few_lines_of_nearly_one_width(self):
        line = [Span("one two three four "), Span("five six", True)]
        report, room = Report(), face().line_width([Span("one two three")])
        lines = wrapped(line, face(), room, report, 0)
        self.assertEqual(["".join(span.text for span in some) for some in lines], ["one two", "three four", "five six"])
        self.assertEqual(lines[2], [Span("five six", True)])

    def test_a_word_that_is_too_wide_is_cut(self):
        report = Report()
        lines = wrapped([Span("x" * 25)], face(), face().line_width([Span("x" * 10)]), report, 0)
        self.assertEqual([len(line[0].text) for line in lines], [10, 10, 5])
        self.assertEqual(report.counts["cut_words"], 1)

    def test_parts_are_as_long_as_their_letters_ask(self):
        lines = [[Span("a" * 10)], [Span("b" * 10)], [Span("c" * 20)], [Span("d" * 20)]]
        self.assertEqual([(start, end, len(some)) for start, end, some in parts_of(lines, 0, 60, 2)], [(0, 20, 2), (20, 60, 2)])


class Clocks(unittest.TestCase):
    def test_frames_and_ticks(self):
        clock = Clock(Fraction(30000, 1001), 100)
        self.assertEqual([clock.tick(frame) for frame in (0, 1, 2)], [100, 3103, 6106])
        self.assertEqual([clock.frame_from(tick) for tick in (100, 101, 3103, 3104)], [0, 1, 1, 2])
        film = Clock(Fraction(24000, 1001))
        self.assertEqual([film.tick(frame) for frame in range(5)], [0, 3754, 7508, 11261, 15015])
        self.assertTrue(all(film.frame_from(film.tick(frame)) == frame for frame in range(2000)))


class Times(unittest.TestCase):
    def test_times_lie_on_frames(self):
        self.assertEqual(times([cue("1.001", "2.999", "A")])[0], [(1, 3, "A")])

    def test_gap_of_a_frame_is_closed(self):
        found, counts = times([cue(1, 2, "A"), cue("2.04", 3, "B")])
        self.assertEqual(found, [(1, 2.04, "A"), (2.04, 3, "B")])
        self.assertEqual(counts["joined"], 1)

    def test_gap_of_two_frames_stays(self):
        self.assertEqual(times([cue(1, 2, "A"), cue("2.08", 3, "B")])[0], [(1, 2, "A"), (2.08, 3, "B")])

    def test_short_overlap_is_cut_and_long_one_is_shown(self):
        found, counts = times([cue(1, "3.2", "A"), cue(3, 5, "B")])
        self.assertEqual((found, counts["cut"]), ([(1, 3, "A"), (3, 5, "B")], 1))
        found, counts = times([cue(1, 4, "A"), cue(2, 5, "B")])
        self.assertEqual(found, [(1, 2, "A"), (2, 4, "A"), (2, 4, "B"), (4, 5, "B")])
        self.assertEqual(counts["together"], 2)

    def test_places_overlap_freely(self):
        self.assertEqual(times([cue(1, 4, "A"), cue(2, 5, "B", TOP)])[0], [(1, 4, "A"), (2, 5, "B")])

    def test_almost_the_same_start(self):
        found, counts = times([cue(1, 3, "A"), cue("1.2", 4, "B")])
        self.assertEqual((found, counts["begun_together"]), ([(1, 4, "A"), (1, 4, "B")], 1))

    def test_cues_that_begin_at_once_and_have_no_room_together(self):
        found, counts = times([cue(1, 4, "A\nB"), cue(1, 5, "C\nD")])
        self.assertEqual(found, [(1, 3, "A"), (1, 3, "B"), (3, 5, "C"), (3, 5, "D")])
        self.assertEqual((counts["in_turn"], counts["left_out"], counts["cut"]), (2, 0, 0))
        # The second has three times as many letters (with the line feed): 12 of 50 frames, and 38. The third begins when both have ended.
        found, counts = times([cue(1, 2, "A\nB"), cue("1.2", 3, "CCCC\nDDDD"), cue("3.2", 4, "E")])
        self.assertEqual(found, [(1, 1.48, "A"), (1, 1.48, "B"), (1.48, 3, "CCCC"), (1.48, 3, "DDDD"), (3.2, 4, "E")])

    def test_cues_behind_each_other_keep_their_times(self):
        found, counts = times([cue(1, "1.28", "A\nB"), cue("1.28", 3, "C\nD")])
        self.assertEqual((found[-1], counts["in_turn"]), ((1.28, 3, "D"), 0))

    def test_short_cue_is_longer_where_there_is_room(self):
        self.assertEqual(times([cue(1, "1.1", "A"), cue(5, 6, "B")])[0], [(1, 1.52, "A"), (5, 6, "B")])

    def test_cue_twice_and_cue_of_no_text(self):
        found, counts = times([cue(1, 2, "A"), cue(1, 2, "A"), cue(3, 4, " ")])
        self.assertEqual((found, counts["doubled"], counts["no_text"]), ([(1, 2, "A")], 1, 1))

    def test_first_cue_waits_for_its_set(self):
        found, counts = records([cue(0, 2, "A" * 30)], offset=0)
        start = next(int(row[1]) for row in found if row[0] == "cue")
        self.assertGreater(start, 0)
        self.assertEqual(counts.counts["moved"], 1)

    def test_twelve_minutes_are_sent_in_pieces(self):
        found, counts = times([cue(1, 721, "A")])
        self.assertEqual([(start, end) for start, end, _ in found], [(1, 600.96), (600.96, 721)])
        self.assertEqual(counts["held"], 1)

    def test_refresh_just_before_a_cue_is_left_out(self):
        wide = "\n".join(["WM" * 38] * 8)
        found, report = records([cue(1, "6.08", wide), cue("6.08", 8, wide)], most_lines=8)
        self.assertEqual(report.counts["refreshes"], 1)
        # The colour of entry 0 once more, five seconds before the second cue.
        self.assertEqual([row[1] for row in found if row[0] == "colour"][-1], str(900_000 + 97_200))

    def test_pages_that_come_too_fast_are_told_of(self):
        cues = [cue(Fraction(n, 20), Fraction(n + 1, 20), "WM" * 30) for n in range(600)]
        found, report = records(cues)
        self.assertGreater(report.counts["left_out"], 0)
        self.assertLess(max(int(row[2]) for row in found if row[0] == "cue"), 900_000 + 33 * 90_000)


    def test_pages_that_the_buffer_cannot_hold_together(self):
        wide = "\n".join(["WM" * 38] * 12)
        found, report = records([cue(1, 20, wide), cue(3, 9, wide, TOP), cue(22, 23, "A")], most_lines=12)
        self.assertEqual(report.counts["left_out"], 1)
        self.assertEqual({row[3] for row in found if row[0] == "cue"}, {"0"})

    def test_first_page_may_wait_longer(self):
        wide = "\n".join(["WM" * 38] * 12)
        found, report = records([cue(0, 8, wide)], offset=0, most_lines=12)
        self.assertEqual((report.counts["left_out"], report.counts["moved"]), (0, 1))


class Scripts(unittest.TestCase):
    def test_head_and_place(self):
        found, _ = records([cue(10, 12, "AB"), cue(20, 22, "C", TOP, align=LEFT)])
        self.assertEqual(found[:4], [["origin", "1350000"], ["display", "720", "576"], ["refresh", "5"], ["epoch", "1800000"]])
        low, high = (row for row in found if row[0] == "region")
        # " AB " has 32 pixels, with two free ones at each side 36; 14 rows above 28 free ones.
        self.assertEqual(low, ["region", "0", "342", "534", "36", "14", "2", "0"])
        self.assertEqual(high[1:4] + high[5:6], ["1", "34", "28", "14"])
        self.assertEqual([row for row in found if row[0] == "cue"],
                         [["cue", "1800000", "1980000", "0", "2", "0", "2", "1", " AB "], ["cue", "2700000", "2880000", "1", "2", "0", "2", "1", " C "]])

    def test_clock_that_goes_round(self):
        found, _ = records([cue(1, 2, "A")], offset=(1 << 33) - 1)
        origin, start = (next(int(row[1]) for row in found if row[0] == word) for word in ("origin", "cue"))
        self.assertLess(origin, 1 << 33)
        self.assertEqual(start, (1 << 33) - 1 + 90_000)

    def test_more_cues_than_a_script_takes(self):
        texts, report = convert([cue(2 * n + 1, 2 * n + 2, "A") for n in range(4_100)], face(), Wishes(offset=126_000))
        self.assertEqual([text.count("\ncue,") for text in texts], [4_096, 4])
        self.assertTrue(all(rules.refusal(text, Font(LINES), "sd") is None for text in texts))
        self.assertEqual(len(report.notes), 1)

    def test_eleven_hours(self):
        texts, _ = convert([cue(1, 2, "A"), cue(39_600, 39_601, "B")], face(), Wishes(offset=126_000))
        self.assertEqual(len(texts), 2)
        self.assertTrue(all(rules.refusal(text, Font(LINES), "sd") is None for text in texts))

    def test_start_of_the_programme(self):
        found, counts = times([cue(36_001, 36_002, "B"), cue(1, 2, "A")], start=Fraction(36_000))
        self.assertEqual((found, counts["before_start"]), ([(1, 2, "B")], 1))

    def test_what_does_not_fit(self):
        with self.assertRaises(Unfit):
            convert([cue(1, 2, "A")], face(), Wishes(display=(1280, 720)))
        with self.assertRaises(Unfit):
            convert([], face(), Wishes())
        with self.assertRaises(Unfit):
            convert([cue(1, 2, "A")], BitmapFace(LINES, 40), Wishes())

    def test_regions_fit_by_fewer_lines(self):
        large = BitmapFace(LINES, 7)
        texts, report = convert([cue(1, 2, "A\nB\nC"), cue(1, 2, "A\nB\nC", TOP)], large, Wishes())
        self.assertIsNone(rules.refusal(texts[0], None, "sd"))
        self.assertEqual(report.notes, ["at most 2 lines at a place, so that the regions fit"])


if __name__ == "__main__":
    unittest.main()
