"""The samples, one call for each refusal that can be reached, and what a careless caller hands over. Run by ./test."""

from __future__ import annotations

import ctypes
import doctest
import mmap
import os
import pickle
import subprocess
import sys
import tempfile
import unittest
from array import array
from concurrent.futures import ThreadPoolExecutor
from dataclasses import FrozenInstanceError
from pathlib import Path

import cantuvesh
from cantuvesh import Refused, chain, judge, merge, messages, table

SAMPLES = Path(__file__).resolve().parents[2] / "samples"
TRACE_A = (SAMPLES / "a.picl").read_bytes()
TRACE_B = (SAMPLES / "b.picl").read_bytes()
SILENT = (SAMPLES / "silent.picl").read_bytes()
POSTED = (SAMPLES / "posted.picl").read_bytes()
GAPS = (SAMPLES / "gaps.picl").read_bytes()
ZEROS = table({}, default=0)
FIVES = table({}, default=5)
CORRECTED_A = array("q", [10, 12, 15, 15, 20])
# A trace for each refusal of its bytes, with the number, the line and the column.
BAD_TRACES = (
    (b"\n" * 65_537, 4, 0, 0),
    (b"0 0 0.000000 1 0 0\nx\n", 5, 2, 2),
    (b"0 0 -0.000000 1 0 0\n", 6, 1, 5),
    (b"-5 0 0.000000 1 0 0\n", 7, 1, 1),
    (b"0 -62 0.000000 1 0 0\n", 8, 1, 3),
    (b"0 0 0.000000 64 0 0\n", 9, 1, 14),
    (b"-3 -21 0.000000 1 0 0\n", 10, 1, 21),
    (b"0 0 0.000001 1 0 0\n0 0 0.000000 1 0 0\n", 11, 2, 0),
    (b"0 0 0.000000 1 0 0\n" * 2_049, 12, 2_049, 0),
)


class Judging(unittest.TestCase):
    def test_trace_a(self):
        answer = judge(TRACE_A, FIVES, "strict", "off", "off", 0)
        counts = (answer.listed, answer.passed, answer.matched, answer.unreceived, answer.rounds)
        self.assertEqual((answer.verdict, counts), ("corrected", (5, 0, 2, 0, 3)))
        self.assertEqual(answer.times, CORRECTED_A)
        self.assertEqual(answer.times.typecode, "q")
        self.assertIsNone(answer.written)

    def test_its_written_trace_is_consistent(self):
        written = judge(TRACE_A, FIVES, "strict", "off", "off", 0, written=True).written
        self.assertEqual(written, TRACE_A.replace(b".000009", b".000015").replace(b".000011", b".000015").replace(b".000013", b".000020"))
        again = judge(written, FIVES, "strict", "off", "off", 0, written=True)
        self.assertEqual((again.verdict, again.rounds, again.times, again.written), ("consistent", 0, CORRECTED_A, written))

    def test_a_written_trace_above_the_limit(self):
        """Every listed record but the first gets eight bytes longer."""
        trace = b"-3 -21 999999999.999999 0 0 3 2 8 1 1\n-4 -52 0.000000 1 0 3 2 8 1 0\n" + b"0 0 0.000000 1 0 0\n" * 2_046
        trace += b"-5 0 0.000000 0 0 1 ".ljust(65_535 - len(trace), b"x") + b"\n"
        written = judge(trace, ZEROS, "lenient", "off", "off", 0, written=True).written
        self.assertEqual(len(written), 65_536 + 8 * 2_047)
        self.assertEqual(written, trace.replace(b" 0.000000 1", b" 999999999.999999 1"))

    def test_nothing_to_judge(self):
        silent = judge(SILENT, FIVES, "strict", "off", "off", 0)
        self.assertEqual((silent.verdict, silent.listed, silent.matched, len(silent.times)), ("nothing to judge", 6, 0, 6))
        empty = judge(b"", FIVES, "strict", "off", "off", 0, written=True)
        self.assertEqual((empty.verdict, empty.times, empty.written), ("nothing to judge", array("q"), b""))

    def test_messages_that_are_posted_and_finish_later(self):
        posted = judge(POSTED, FIVES, "strict", "off", "off", 0, written=True)
        self.assertEqual((posted.verdict, posted.listed, posted.matched, posted.rounds), ("corrected", 20, 2, 3))
        self.assertEqual(list(posted.times[-4:]), [95, 115, 115, 115])
        self.assertEqual(posted.written, POSTED.replace(b".000098", b".000115").replace(b"28 0.000100", b"28 0.000115").replace(b".000102", b".000115"))

    def test_a_receive_may_take_fewer_bytes_than_were_sent(self):
        short = judge(b"-3 -21 0.000004 0 0 3 2 8 1 1\n-4 -52 0.000000 1 0 3 2 7 1 0\n", FIVES, "strict", "off", "off", 0)
        self.assertEqual((short.verdict, short.matched, list(short.times)), ("corrected", 1, [4, 9]))

    def test_lenient_passes_over_what_strict_refuses(self):
        trace = TRACE_A + b"-5 0 0.000000 0 0 0\n"
        lenient = judge(trace, FIVES, "lenient", "off", "off", 0)
        self.assertEqual((lenient.passed, lenient.times), (1, CORRECTED_A))
        with self.assertRaises(Refused) as raised:
            judge(trace, FIVES, choice="strict", levels="off", statistics="off", share=0)
        self.assertEqual((raised.exception.number, raised.exception.line, raised.exception.column), (7, 6, 1))

    def test_an_answer_stays_as_it_is(self):
        with self.assertRaises(FrozenInstanceError):
            judge(TRACE_A, FIVES, "strict", "off", "off", 0).verdict = "consistent"

    def test_several_threads_at_once(self):
        """One trace for each sender, whose time tells which it was."""
        traces = [f"-3 -21 0.{micros:06} 0 0 3 2 8 1 1\n-4 -52 0.000000 1 0 3 2 8 1 0\n".encode() for micros in range(400)]
        with ThreadPoolExecutor(8) as threads:
            answers = list(threads.map(lambda trace: judge(trace, FIVES, "strict", "off", "off", 0), traces))
        self.assertEqual([list(answer.times) for answer in answers], [[micros, micros + 5] for micros in range(400)])


class Refusing(unittest.TestCase):
    def refused(self, number, line, column, trace, latencies=ZEROS):
        with self.assertRaises(Refused) as raised:
            judge(trace, latencies, "strict", "off", "off", 0, written=True)
        self.assertEqual((raised.exception.number, raised.exception.line, raised.exception.column), (number, line, column))
        return raised.exception

    def test_every_number_that_can_be_reached(self):
        """Not 1, since no other choice or switch gets as far as the call, and not 16, since there is always room; 17 is below."""
        self.refused(2, 0, 0, b"", ZEROS[1:])
        self.refused(2, 0, 0, b"", ZEROS + ZEROS)
        self.refused(2, 0, 0, b"", array("I"))
        self.refused(3, 0, 0, b"", ZEROS[1:] + array("I", [1_000_001]))
        self.refused(4, 0, 0, b"\n" * 65_537)
        self.refused(5, 2, 2, b"0 0 0.000000 0 0 0\nx\n")
        self.refused(6, 1, 5, b"0 0 -0.000000 0 0 0\n")
        self.refused(7, 1, 1, b"-5 0 0.000000 0 0 0\n")
        self.refused(8, 1, 3, b"0 -56 0.000000 0 0 0\n")
        self.refused(9, 1, 14, b"0 0 0.000000 64 0 0\n")
        self.refused(10, 1, 21, b"-3 -21 0.000000 0 0 0\n")
        self.refused(11, 2, 0, b"0 0 0.000001 0 0 0\n0 0 0.000000 0 0 0\n")
        self.refused(12, 2_049, 0, b"0 0 0.000000 0 0 0\n" * 2_049)
        self.refused(13, 1, 0, b"-4 -52 0.000000 1 0 3 2 8 1 0\n")
        self.refused(14, 1, 0, b"-4 -52 0.000000 1 0 3 2 8 1 0\n-3 -21 0.000000 0 0 3 2 7 1 1\n")
        self.refused(15, 0, 0, TRACE_B, table({(0, 1): 1}, default=0))

    def test_columns(self):
        """The first field, one in the middle, and the last; what is missing or too much; other fields of 7, 9 and 10."""
        self.refused(5, 1, 1, b"x 0 0.000000 0 0 2 2 1 1\n")
        self.refused(5, 1, 16, b"0 0 0.000000 0 x 2 2 1 1\n")
        self.refused(5, 1, 24, b"0 0 0.000000 0 0 2 2 1 x\n")
        self.refused(5, 1, 23, b"0 0 0.000000 0 0 2 2 1\n")
        self.refused(5, 1, 26, b"0 0 0.000000 0 0 2 2 1 1 1\n")
        self.refused(5, 1, 6, b"0 0 x\n")
        self.refused(5, 2, 12, b"0 0 0.000000 0 0 0\n0 0 x 0 0 0")
        self.refused(7, 1, 3, b"0 -1 0.000000 0 0 0\n")
        self.refused(9, 1, 16, b"0 0 0.000000 0 1 0\n")
        self.refused(10, 1, 23, b"-3 -21 0.000000 0 0 3 5 0.000000 0.000000 0.000000\n")
        self.refused(10, 1, 25, b"-3 -21 0.000000 0 0 3 2 -8 1 64\n")
        self.refused(10, 1, 29, b"-3 -21 0.000000 0 0 3 2 8 1 64\n")

    def test_what_a_refusal_says(self):
        of_a_field = self.refused(6, 1, 5, b"0 0 -0.000000 0 0 0\n")
        self.assertEqual(str(of_a_field), "refused 6 line 1 column 5: the form of the timestamp is bad")
        of_a_line = self.refused(13, 1, 0, b"-4 -52 0.000000 1 0 3 2 8 1 0\n")
        self.assertEqual(of_a_line.sentence, "the receive has no matching send")
        self.assertEqual(str(of_a_line), "refused 13 line 1: the receive has no matching send")
        self.assertEqual(str(self.refused(2, 0, 0, b"", array("I"))), "refused 2: the table or the lent times have the wrong length, or the share is above 1,000")

    def test_a_refusal_comes_whole_from_another_process(self):
        copy = pickle.loads(pickle.dumps(Refused(7, 25, 1)))
        self.assertEqual((copy.number, copy.which, copy.line, copy.column), (7, 0, 25, 1))
        self.assertEqual(str(copy), str(Refused(7, 25, 1)))
        copy = pickle.loads(pickle.dumps(Refused(7, 25, 1, 2)))
        self.assertEqual((copy.number, copy.which, copy.line, copy.column), (7, 2, 25, 1))

    def test_a_choice_has_to_be_named(self):
        with self.assertRaises(TypeError):
            judge(TRACE_A, FIVES, levels="off", statistics="off", share=0)
        for other in ("", "Strict", "1", 1, 2, True, None, b"strict"):
            with self.subTest(other), self.assertRaisesRegex(ValueError, '"strict" or "lenient"'):
                judge(TRACE_A, FIVES, other, "off", "off", 0)


class Levels(unittest.TestCase):
    GOOD = b"-2 -904 0.000000 0 0 3 2 4 -1 999999999\n"
    OTHER = b"-2 -904 0.000000 0 0 3 2 4 -1 0\n"
    SHORT = b"-2 -904 0.000000 0 0 2 2 4 -1\n"
    EVENT = b"-3 7 0.000001 0 0 0\n"
    ELSEWHERE = b"-3 7 0.000001 1 0 0\n"
    EXPECTED = (4, -1, 999_999_999)

    def test_levels_that_are_met(self):
        for lines in ([], [self.GOOD, self.EVENT], [self.OTHER, self.GOOD, self.SHORT]):
            with self.subTest(lines):
                trace = b"".join(lines)
                met = judge(trace, ZEROS, "strict", self.EXPECTED, "off", 0, written=True)
                self.assertEqual(met, judge(trace, ZEROS, "strict", "off", "off", 0, written=True))
                self.assertEqual((met.listed, met.written), (len(lines), trace))

    def refused(self, line, lines, levels):
        with self.assertRaises(Refused) as raised:
            judge(b"".join(lines), ZEROS, "strict", levels, "off", 0)
        self.assertEqual((raised.exception.number, raised.exception.line, raised.exception.column), (17, line, 0))

    def test_levels_that_are_not(self):
        self.refused(3, [self.GOOD, self.OTHER, self.EVENT, self.ELSEWHERE], self.EXPECTED)
        self.refused(3, [self.GOOD, self.EVENT, self.ELSEWHERE], self.EXPECTED)
        self.refused(2, [self.SHORT, self.EVENT], self.EXPECTED)
        for levels in ((-1, 4, 999_999_999), (4, 999_999_999, -1), (4, -1, 2**63 - 1), (-(2**63), -1, 999_999_999)):
            self.refused(2, [self.GOOD, self.EVENT], levels)

    def test_levels_that_are_off(self):
        self.assertEqual(judge(self.GOOD + self.OTHER + self.ELSEWHERE, ZEROS, "strict", levels="off", statistics="off", share=0).listed, 3)

    def test_levels_have_to_be_named(self):
        with self.assertRaises(TypeError):
            judge(TRACE_A, FIVES, "strict", statistics="off", share=0)
        no_triples = ((), (1, 1), (1, 1, 1, 1), [1, 1, 1], {1, 2, 3}, array("q", [1, 1, 1]))
        no_levels = ((1, 1, None), (1, 1.0, 1), ("1", 1, 1), (True, 1, 1), (2**63, 0, 0), (0, -(2**63) - 1, 0))
        for other in ("", "on", "Off", b"off", None, False, 0, 1, *no_triples, *no_levels):
            with self.subTest(other), self.assertRaisesRegex(ValueError, '"off" or three whole numbers'):
                judge(TRACE_A, FIVES, "strict", other, "off", 0)

    def test_what_is_asked_has_the_places_of_c(self):
        asked = cantuvesh._Asked
        places = [getattr(asked, name).offset for name in ("choice", "levels", "picl", "user", "trace", "statistics", "share")]
        self.assertEqual((places, ctypes.sizeof(asked)), ([0, 4, 8, 16, 24, 32, 36], 40))


class Statistics(unittest.TestCase):
    ENTRY = b"-3 7 0.000001 0 0 0\n"
    RIGHT = b'-102 -1 0.000001 0 0 1 "%d%d" 7 1\n'
    WRONG = b'-102 -1 0.000001 0 0 1 "%d%d" 7 2\n'

    def test_statistics_that_agree(self):
        for lines in ([], [self.ENTRY, self.RIGHT], [self.ENTRY, self.RIGHT, self.ENTRY, self.WRONG]):
            with self.subTest(lines):
                trace = b"".join(lines)
                met = judge(trace, ZEROS, "strict", "off", "on", 0, written=True)
                self.assertEqual(met, judge(trace, ZEROS, "strict", "off", "off", 0, written=True))
                self.assertEqual((met.listed, met.passed, met.written), (len(lines), 0, trace))

    def test_statistics_that_do_not(self):
        for call in (judge, messages, lambda *words: chain(*words, 0)):
            with self.assertRaises(Refused) as raised:
                call(self.ENTRY + self.WRONG + self.RIGHT, ZEROS, "strict", "off", "on", 0)
            refused = raised.exception
            self.assertEqual((refused.number, refused.line, refused.column), (19, 2, 0))
        self.assertEqual(judge(self.ENTRY + self.WRONG, ZEROS, "strict", "off", "off", 0).listed, 2)

    # Table 20: what its entries and exits come to, with one microsecond for each entry. Its -52, -401 and -903 are one off.
    SPENT = {-11: (98, 1), -21: (46, 1), -52: (1213, 2), -401: (8084, 1), -901: (717018, 1), -902: (1170, 1), -903: (705633, 1), 0: (523, 1), 1: (1013, 1)}

    def is_told(self, kind, event, number):
        """Whether such a number of Table 20, which told another one, is still good."""
        if kind == -101:
            spent, entries = self.SPENT[event]
            return abs(number - spent) <= entries
        return kind == -103 and event == -901

    def test_each_number_of_table_20_moved(self):
        lines = (SAMPLES / "table20_sent.picl").read_bytes().splitlines(True)
        table = b"".join(lines)
        self.assertEqual(judge(table, ZEROS, "strict", "off", "on", 0).listed, 37)
        answers = []
        for place, line in enumerate(lines):
            fields = line.split()
            if int(fields[0]) > -101 or fields[1] != b"-1":
                continue
            for told in range(8, len(fields), 2):
                kind, event = int(fields[0]), int(fields[told - 1])
                number = int(fields[told].replace(b".", b""))
                for moved in (number + by for by in (-2, -1, 1, 2)):
                    other = b"%d.%06d" % divmod(moved, 10**6) if kind == -101 else b"%d" % moved
                    trace = b"".join([*lines[:place], b" ".join([*fields[:told], other, *fields[told + 1 :]]) + b"\n", *lines[place + 1 :]])
                    # a count or volume of -1 says that nothing was measured
                    good = self.is_told(kind, event, moved) or (kind != -101 and moved == -1)
                    with self.subTest(line=place + 1, event=event, told=other):
                        answers.append(good)
                        if good:
                            self.assertEqual(judge(trace, ZEROS, "strict", "off", "on", 0).listed, 37)
                            continue
                        with self.assertRaises(Refused) as raised:
                            judge(trace, ZEROS, "strict", "off", "on", 0)
                        self.assertEqual((raised.exception.number, raised.exception.line), (19, place + 1))
        self.assertEqual((len(answers), sum(answers)), (92, 33))

    def test_statistics_have_to_be_named(self):
        with self.assertRaises(TypeError):
            judge(TRACE_A, FIVES, "strict", "off", share=0)
        for other in ("", "On", b"on", None, False, True, 0, 1, ("on",), ["on"]):
            with self.subTest(other), self.assertRaisesRegex(ValueError, '"on" or "off"'):
                judge(TRACE_A, FIVES, "strict", "off", other, 0)


class Shares(unittest.TestCase):
    def times(self, trace, latencies, share):
        return list(judge(trace, latencies, "strict", "off", "off", share).times)

    def test_gaps_that_are_kept(self):
        """Gaps of 2, 1 and 2 in trace A; of 1 and of 7 in the other, which are each rounded down."""
        for share, expected in ((0, [15, 15, 20]), (499, [15, 15, 20]), (500, [15, 16, 21]), (1_000, [15, 17, 22])):
            self.assertEqual(self.times(TRACE_A, FIVES, share), [10, 12, *expected])
        for share, expected in ((0, [105, 105]), (500, [105, 108]), (999, [105, 111]), (1_000, [106, 113])):
            self.assertEqual(self.times(GAPS, FIVES, share), [100, 105, *expected])

    def test_a_ring_of_waits(self):
        self.assertEqual(self.times(TRACE_B, ZEROS, 999), [4, 4, 4, 4])
        self.refused(15, TRACE_B, ZEROS, 1_000)

    def test_the_written_trace_is_consistent(self):
        corrected = judge(GAPS, FIVES, "strict", "off", "off", 500, written=True)
        for share in (0, 500, 1_000):
            again = judge(corrected.written, FIVES, "strict", "off", "off", share)
            self.assertEqual((again.verdict, again.times), ("consistent", corrected.times))

    def test_chains_over_gaps(self):
        for share in (0, 500, 1_000):
            self.assertEqual(chain(GAPS, FIVES, "strict", "off", "off", share, 3), [3, 2, 1, 0])
            self.assertEqual(messages(GAPS, FIVES, "strict", "off", "off", share), [(0, 1)])

    def refused(self, number, trace, latencies, share):
        with self.assertRaises(Refused) as raised:
            judge(trace, latencies, "strict", "off", "off", share)
        self.assertEqual((raised.exception.number, raised.exception.line, raised.exception.column), (number, 0, 0))

    def test_shares_that_are_too_high(self):
        for share in (1_001, 65_536, 2**32 - 1):
            self.refused(2, b"", ZEROS, share)
            self.refused(2, b"x", array("I", [1_000_001]) * 4_096, share)

    def test_a_share_has_to_be_named(self):
        with self.assertRaises(TypeError):
            judge(TRACE_A, FIVES, "strict", "off", "off")
        for other in (-1, 2**32, 0.5, "500", True, None, (500,)):
            with self.subTest(other), self.assertRaisesRegex(ValueError, "the share should be .* 0 to 1,000, and is"):
                judge(TRACE_A, FIVES, "strict", "off", "off", other)


class Merging(unittest.TestCase):
    """Trace A as two nodes would have written it, and what is refused of either trace or of both."""

    ZERO = b"".join(line for line in TRACE_A.splitlines(True) if line.split()[3] == b"0")
    ONE = b"".join(line for line in TRACE_A.splitlines(True) if line.split()[3] == b"1")
    GOOD = b"0 0 0.000000 0 0 0\n"

    def test_trace_a_of_two_nodes(self):
        merged = merge(self.ZERO, self.ONE, "strict")
        self.assertEqual([line.split()[2][-2:] for line in merged.splitlines()], [b"09", b"10", b"11", b"12", b"13"])
        self.assertEqual(sorted(merged.splitlines()), sorted(TRACE_A.splitlines()))
        self.assertEqual(merge(self.ONE, self.ZERO, "strict"), merged)
        self.assertEqual(judge(merged, FIVES, "strict", "off", "off", 0).verdict, "corrected")

    def test_which_line_goes_next(self):
        """The first trace's where equal; times as numbers; the heads alone, also of what is passed over."""
        zero, one = b"0 0 2.000000 0 0 0\n", b"0 0 2.000000 1 0 0\n"
        self.assertEqual((merge(zero, one, "strict"), merge(one, zero, "strict")), (zero + one, one + zero))
        ten = b"0 0 10.000000 1 0 0\n"
        self.assertEqual(merge(ten, zero, "strict"), zero + ten)
        late = b"-5 0 11.000000 0 0 0\n"
        self.assertEqual(merge(late + zero, ten, "lenient"), ten + late + zero)

    def test_empty_traces(self):
        self.assertEqual((merge(b"", b"", "strict"), merge(TRACE_A, b"", "strict"), merge(b"", TRACE_A, "strict")), (b"", TRACE_A, TRACE_A))

    def test_limits_of_their_own(self):
        zero, one = (b"0 0 0.000000 %d 0 0\n" % processor * 2_048 for processor in (0, 1))
        self.assertEqual(merge(zero, one, "strict"), zero + one)
        full = [b"-5 0 0.000000 0 0 1 ".ljust(65_535, fill) + b"\n" for fill in (b"x", b"y")]
        self.assertEqual(merge(*full, "lenient"), b"".join(full))

    def refused(self, expected, first, second, choice="strict"):
        with self.assertRaises(Refused) as raised:
            merge(first, second, choice)
        refused = raised.exception
        self.assertEqual((refused.number, refused.which, refused.line, refused.column), expected)
        return refused

    def test_every_number_of_either_trace(self):
        """Not 1 and not 16: no other choice gets as far as the call, and there is always room."""
        for bad, number, line, column in BAD_TRACES:
            with self.subTest(number):
                self.refused((number, 1, line, column), bad, self.GOOD)
                self.refused((number, 2, line, column), self.GOOD, bad)
                self.refused((number, 1, line, column), bad, b"x\n")

    def test_a_processor_in_both(self):
        self.refused((18, 0, 0, 0), TRACE_A, self.GOOD)
        passed = b"-5 0 0.000000 0 0 0\n"
        self.assertEqual(merge(self.GOOD, passed, "lenient"), self.GOOD + passed)
        self.assertEqual(merge(passed, passed, "lenient"), passed + passed)

    def test_what_a_refusal_says(self):
        of_a_line = self.refused((6, 2, 1, 5), b"", b"0 0 -0.000000 0 0 0\n")
        self.assertEqual(str(of_a_line), "refused 6 trace 2 line 1 column 5: the form of the timestamp is bad")
        of_a_trace = self.refused((4, 1, 0, 0), b"\n" * 65_537, b"")
        self.assertEqual(str(of_a_trace), "refused 4 trace 1: the trace is longer than 65,536 bytes")
        of_both = self.refused((18, 0, 0, 0), self.GOOD, self.GOOD)
        self.assertEqual(str(of_both), "refused 18: both of the traces to be merged hold a listed record of the same processor")

    def test_a_choice_has_to_be_named(self):
        with self.assertRaises(TypeError):
            merge(self.ZERO, self.ONE)
        for other in ("", "Strict", 1, 2, None):
            with self.subTest(other), self.assertRaisesRegex(ValueError, '"strict" or "lenient"'):
                merge(self.ZERO, self.ONE, other)

    def test_whatever_lends_contiguous_bytes(self):
        merged = merge(self.ZERO, self.ONE, "strict")
        self.assertEqual(merge(bytearray(self.ZERO), memoryview(self.ONE), "strict"), merged)
        for other in (self.ZERO.decode(), None, memoryview(self.ZERO)[::2]):
            with self.subTest(other):
                with self.assertRaisesRegex(TypeError, "the first trace should be contiguous bytes"):
                    merge(other, self.ONE, "strict")
                with self.assertRaisesRegex(TypeError, "the second trace should be contiguous bytes"):
                    merge(self.ONE, other, "strict")


class Lists(unittest.TestCase):
    """The messages of a trace and the chains of its records, and what is refused of both."""

    FEWEST = (
        b"-3 -21 0.000010 0 0 3 2 8 1 2\n"
        b"-3 -21 0.000010 1 0 3 2 8 1 2\n"
        b"-4 -52 0.000000 2 0 3 2 8 1 0\n"
        b"-4 -52 0.000000 2 0 3 2 8 1 1\n"
    )
    # Three steps either way from the last record: by the two before it, or by its send and what is before that.
    EQUAL = (
        b"-3 -21 0.000010 0 0 3 2 8 1 1\n"
        b"-3 -21 0.000010 2 0 3 2 8 1 3\n"
        b"-4 -52 0.000000 1 0 3 2 8 1 0\n"
        b"0 0 0.000000 1 0 0\n"
        b"-4 -52 0.000000 3 0 3 2 8 1 2\n"
        b"-3 -21 0.000000 3 0 3 2 8 1 1\n"
        b"-4 -52 0.000000 1 0 3 2 8 1 3\n"
    )

    def chains(self, trace, latencies):
        listed = judge(trace, latencies, "strict", "off", "off", 0).listed
        return [chain(trace, latencies, "strict", "off", "off", 0, place) for place in range(listed)]

    def test_trace_a(self):
        self.assertEqual(messages(TRACE_A, FIVES, "strict", "off", "off", 0), [(0, 2), (3, 4)])
        self.assertEqual(self.chains(TRACE_A, FIVES), [[0], [1], [2, 0], [3, 2, 0], [4, 3, 2, 0]])
        self.assertEqual(self.chains(TRACE_A, ZEROS), [[0], [1], [2, 0], [3], [4]])

    def test_sends_that_stand_later_in_the_file(self):
        self.assertEqual(messages(TRACE_B, ZEROS, "strict", "off", "off", 0), [(3, 0), (1, 2)])
        self.assertEqual(self.chains(TRACE_B, ZEROS), [[0, 3], [1, 0, 3], [2, 1, 0, 3], [3]])

    def test_which_chain(self):
        """One with the fewest steps; where they are as many, the processor's step before the send's."""
        self.assertEqual(self.chains(self.FEWEST, ZEROS)[3], [3, 1])
        self.assertEqual(self.chains(self.EQUAL, ZEROS)[6], [6, 3, 2, 0])

    def test_an_unmoved_record_is_alone(self):
        trace = b"-3 -21 0.000010 0 0 3 2 8 1 1\n0 0 0.000010 1 0 0\n-4 -52 0.000010 1 0 3 2 8 1 0\n"
        self.assertEqual(self.chains(trace, ZEROS), [[0], [1], [2]])

    def test_places_count_listed_records(self):
        passed = b"-5 0 0.000000 0 0 0\n"
        trace = b"".join(passed + line for line in TRACE_A.splitlines(True))
        self.assertEqual(messages(trace, FIVES, "lenient", "off", "off", 0), [(0, 2), (3, 4)])
        self.assertEqual(chain(trace, FIVES, "lenient", "off", "off", 0, 4), [4, 3, 2, 0])

    def test_the_longest_lists(self):
        trace = b"-3 -21 0.000001 0 0 3 2 8 1 1\n" * 1_024 + b"-4 -52 0.000001 1 0 3 2 8 1 0\n" * 1_024
        self.assertEqual(messages(trace, ZEROS, "strict", "off", "off", 0), [(place, 1_024 + place) for place in range(1_024)])
        trace = b"-3 -21 0.000001 0 0 3 2 8 1 0\n-4 -52 0.000001 0 0 3 2 8 1 0\n" + b"0 0 0.000001 0 0 0\n" * 2_046
        self.assertEqual(chain(trace, FIVES, "strict", "off", "off", 0, 2_047), list(range(2_047, -1, -1)))

    def test_no_messages(self):
        for trace in (SILENT, b""):
            self.assertEqual(messages(trace, FIVES, "strict", "off", "off", 0), [])

    def refused(self, expected, trace, latencies=ZEROS, choice="strict", levels="off", statistics="off", share=0):
        """By both calls, whatever the place is."""
        for call in (messages, *(lambda *words, place=place: chain(*words, place) for place in (0, 2**64 - 1))):
            with self.assertRaises(Refused) as raised:
                call(trace, latencies, choice, levels, statistics, share)
            refused = raised.exception
            self.assertEqual((refused.number, refused.line, refused.column, refused.which), (*expected, 0))

    def test_what_judging_refuses(self):
        """Not 1: no other choice gets as far as the call."""
        self.refused((2, 0, 0), b"", array("I", [0] * 4_095))
        self.refused((3, 0, 0), b"", array("I", [1_000_001] * 4_096))
        for trace, *expected in BAD_TRACES + (
            (b"-4 -52 0.000000 1 0 3 2 8 1 0\n", 13, 1, 0),
            (b"-4 -52 0.000000 1 0 3 2 8 1 0\n-3 -21 0.000000 0 0 3 2 7 1 1\n", 14, 1, 0),
        ):
            with self.subTest(expected):
                self.refused(expected, trace)
        self.refused((15, 0, 0), TRACE_B, table({(0, 1): 1}, default=0))
        self.refused((17, 5, 0), TRACE_A, levels=(1, 1, 1))
        self.refused((15, 0, 0), TRACE_B, share=1_000)
        self.refused((2, 0, 0), TRACE_B, share=1_001)

    def test_places_that_are_none(self):
        for trace, place in ((TRACE_A, 5), (TRACE_A, 2**32), (TRACE_A, 2**64 - 1), (b"", 0)):
            with self.subTest(place), self.assertRaises(Refused) as raised:
                chain(trace, FIVES, "strict", "off", "off", 0, place)
            refused = raised.exception
            self.assertEqual((refused.number, refused.line, refused.column), (22, 0, 0))
            self.assertRegex(str(refused), "^refused 22: there is no such listed record: the place is not below their number")
        for other in (-1, 2**64, 1.0, "1", True, None):
            with self.subTest(other), self.assertRaisesRegex(ValueError, "the place should be a whole number"):
                chain(TRACE_A, FIVES, "strict", "off", "off", 0, other)

    def test_nothing_has_a_default(self):
        everything = (TRACE_A, FIVES, "strict", (1, 1, 1), "on")
        for words in (everything[:named] for named in range(1, 6)):
            with self.assertRaises(TypeError):
                messages(*words)
            with self.assertRaises(TypeError):
                chain(*words, place=0)
        with self.assertRaises(TypeError):
            chain(TRACE_A, FIVES, "strict", "off", "off", 0)
        for call in (messages, lambda *words: chain(*words, 0)):
            with self.assertRaisesRegex(ValueError, '"strict" or "lenient"'):
                call(TRACE_A, FIVES, 1, "off", "off", 0)
            with self.assertRaisesRegex(ValueError, "the levels should be"):
                call(TRACE_A, FIVES, "strict", None, "off", 0)
            with self.assertRaisesRegex(ValueError, "the statistics should be"):
                call(TRACE_A, FIVES, "strict", "off", None, 0)
            with self.assertRaisesRegex(ValueError, "the share should be"):
                call(TRACE_A, FIVES, "strict", "off", "off", None)

    def test_whatever_lends_contiguous_bytes(self):
        for call in (messages, lambda *words: chain(*words, 4)):
            expected = call(TRACE_A, FIVES, "strict", "off", "off", 0)
            self.assertEqual(call(bytearray(TRACE_A), memoryview(FIVES), "strict", "off", "off", 0), expected)
            with self.assertRaisesRegex(TypeError, "the trace should be contiguous bytes"):
                call(TRACE_A.decode(), FIVES, "strict", "off", "off", 0)
            with self.assertRaisesRegex(TypeError, "the table should be contiguous unsigned numbers"):
                call(TRACE_A, list(FIVES), "strict", "off", "off", 0)


class Answers(unittest.TestCase):
    def test_an_answer_has_the_places_of_c(self):
        answer = cantuvesh._Answer
        names = ("number", "line", "column", "verdict", "listed", "passed", "matched", "unreceived", "rounds", "written")
        self.assertEqual([getattr(answer, name).offset for name in names], list(range(0, 80, 8)))
        self.assertEqual(ctypes.sizeof(answer), 80)

    def test_so_has_that_of_a_merging(self):
        merged = cantuvesh._Merged
        names = ("number", "which", "line", "column", "written")
        self.assertEqual([getattr(merged, name).offset for name in names], list(range(0, 40, 8)))
        self.assertEqual(ctypes.sizeof(merged), 40)

    def test_so_have_messages_and_lists(self):
        for structure, names in ((cantuvesh._Message, ("send", "receive")), (cantuvesh._Filled, ("number", "line", "column", "filled"))):
            size = 8 * len(names)
            self.assertEqual([getattr(structure, name).offset for name in names], list(range(0, size, 8)))
            self.assertEqual(ctypes.sizeof(structure), size)


class Buffers(unittest.TestCase):
    def test_whatever_lends_contiguous_bytes(self):
        apart = memoryview(b"?" + TRACE_A + b"?")[1:-1]
        for trace in (bytearray(TRACE_A), memoryview(TRACE_A), apart, apart.cast("c"), array("B", TRACE_A)):
            with self.subTest(trace):
                self.assertEqual(judge(trace, FIVES, "strict", "off", "off", 0).times, CORRECTED_A)
        with tempfile.TemporaryFile() as file:
            file.write(TRACE_A)
            file.flush()
            with mmap.mmap(file.fileno(), 0, access=mmap.ACCESS_READ) as mapped:
                self.assertEqual(judge(mapped, FIVES, "strict", "off", "off", 0).times, CORRECTED_A)

    def test_a_trace_that_is_none(self):
        spread = bytes(byte for pair in zip(TRACE_A, TRACE_A) for byte in pair)
        for trace in (memoryview(spread)[::2], memoryview(TRACE_A)[::-1], array("I", [1]), TRACE_A.decode(), None, 5, [1]):
            with self.subTest(trace), self.assertRaisesRegex(TypeError, "the trace should be contiguous bytes"):
                judge(trace, FIVES, "strict", "off", "off", 0)

    def test_whatever_lends_latencies(self):
        file = (SAMPLES / "five.table").read_bytes()
        for latencies in (array("I", file), memoryview(FIVES), memoryview(file).cast("I"), memoryview(file).cast("I", (64, 64))):
            with self.subTest(latencies):
                self.assertEqual(judge(TRACE_A, latencies, "strict", "off", "off", 0).times, CORRECTED_A)

    def test_latencies_that_are_none(self):
        for latencies in (memoryview(FIVES * 2)[::2], array("i", FIVES), array("Q", FIVES), FIVES.tobytes(), list(FIVES), {}, None):
            with self.subTest(latencies), self.assertRaisesRegex(TypeError, "the table should be contiguous unsigned numbers"):
                judge(TRACE_A, latencies, "strict", "off", "off", 0)


class Tables(unittest.TestCase):
    def test_latencies_stand_at_their_pair(self):
        entries = table({(2, 5): 9, (63, 63): 1_000_000}, default=3)
        self.assertEqual((len(entries), entries.typecode), (4_096, "I"))
        others = {64 * 2 + 5: 9, 4_095: 1_000_000}
        self.assertEqual(list(entries), [others.get(place, 3) for place in range(4_096)])

    def test_the_samples(self):
        for name, made in (("five", FIVES), ("zero", ZEROS), ("one_way", table({(0, 1): 1}, default=0))):
            self.assertEqual(made.tobytes(), (SAMPLES / f"{name}.table").read_bytes())

    def test_the_default_has_to_be_named(self):
        with self.assertRaises(TypeError):
            table({(0, 1): 5})
        with self.assertRaises(TypeError):
            table({(0, 1): 5}, 0)

    def test_pairs_that_are_none(self):
        for pair in ((0, 64), (-1, 0), (0,), (0, 1, 2), 65, "01", ("0", "1"), (0.0, 1), (False, True), None):
            with self.subTest(pair), self.assertRaisesRegex(ValueError, "two processors from 0 to 63"):
                table({pair: 5}, default=0)

    def test_latencies_that_are_none(self):
        for latency in (-1, 1_000_001, 2**32, 5.0, "5", True, None):
            with self.subTest(latency):
                with self.assertRaisesRegex(ValueError, "the latency from 0 to 1 should be .* 0 to 1,000,000, and is"):
                    table({(0, 1): latency}, default=0)
                with self.assertRaisesRegex(ValueError, "the default should be .* 0 to 1,000,000, and is"):
                    table({}, default=latency)


class Loading(unittest.TestCase):
    def test_a_missing_library(self):
        with tempfile.TemporaryDirectory() as empty:
            run = subprocess.run(
                [sys.executable, "-B", "-c", "import cantuvesh"],
                cwd=Path(cantuvesh.__file__).parent,
                env={**os.environ, "CANTUVESH_LIBRARY": empty},
                capture_output=True,
                text=True,
            )
        self.assertNotEqual(run.returncode, 0)
        self.assertRegex(run.stderr, f"ImportError: {empty}/lib/libcantuvesh.so.{cantuvesh.VERSION}: .*: run ./library, .* CANTUVESH_LIBRARY")


def load_tests(_loader, tests, _pattern):
    """The examples in the documentation are tests, too."""
    tests.addTests(doctest.DocTestSuite(cantuvesh))
    return tests


if __name__ == "__main__":
    unittest.main()
