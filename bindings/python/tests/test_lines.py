"""The line call against the reference."""

import unittest

import support
from support import softdemap

from constellations import QAM
from lines import answer_line
from softlines_input import all_cases
from softlines_refused import ORDER, WEIGHTED_ORDER
from worked import WEIGHTED_LINES
from written import LineDraws, written

WORKED = "01020200030001027FFF000500000003FFFFFFEC"
ANSWER = "000006FFF1FFDD0096"
CELLULAR, CELLULAR_ANSWER = "03020200040001027FFF000500000003FFFFFFEC", "000006000FFF6A0023FFCE"


class Lines(unittest.TestCase):
    def test_lines_of_softlines(self):
        """The lines that the program softlines is run on, as bytes, as text, and in other forms."""
        counts, draws = support.Counts(), LineDraws(37)
        texts = [lambda values, code: bytes(values), lambda values, code: bytes(values).decode("latin-1")]
        for line, _ in all_cases():
            wanted, refusal = answer_line(line)
            given = draws.one_of(texts + texts + support.FORMS)(list(line), "B")
            with self.subTest(line=given):
                answer, refused = support.answer_of(softdemap.answer_line, given)
                self.assertEqual((answer, refused), (wanted and wanted.decode("ascii"), refusal))
            counts.add(refusal)
        counts.check(self, "lines", {0, *ORDER, *WEIGHTED_ORDER}, 10)

    def test_worked_line(self):
        for line in (WORKED, WORKED.encode("ascii"), bytearray(WORKED, "ascii"), memoryview(WORKED.encode("ascii"))):
            self.assertEqual(softdemap.answer_line(line), ANSWER)
        self.assertEqual(softdemap.answer_line(CELLULAR), CELLULAR_ANSWER)

    def test_worked_lines_with_weights(self):
        """Of a refused line the symbol is named where the weight is that of a symbol."""
        for line, answer in WEIGHTED_LINES:
            found, refused = support.answer_of(softdemap.answer_line, line)
            self.assertEqual(found or "%02X" % refused[0], answer.decode("ascii"))
        for line, symbol in ((WEIGHTED_LINES[-1][0], 0), (b"01020200030000027FFF000500000003FFFFFFEC", None)):
            with self.assertRaises(softdemap.Refused) as caught:
                softdemap.answer_line(line)
            self.assertEqual((caught.exception.refusal, caught.exception.symbol), (softdemap.Refusal.WEIGHT, symbol))

    def test_characters_of_any_size(self):
        """A character of a str counts as one, so that the length is judged before the characters."""
        for character in "\u00b5\u2026\U0001f4e1\ud800":
            self.assertEqual(support.answer_of(softdemap.answer_line, WORKED[:-1] + character)[1], (2, 0))
            self.assertEqual(support.answer_of(softdemap.answer_line, WORKED + character)[1], (1, 0))

    def test_longest(self):
        """The longest line and the longest answer."""
        draws = LineDraws(41)
        line = written(draws.weighted(draws.frame((QAM, 6, 6), 256)))
        self.assertEqual(len(line), softdemap.MAX_LINE)
        self.assertEqual(len(softdemap.answer_line(line)), softdemap.MAX_ANSWER)
        self.assertEqual(support.answer_of(softdemap.answer_line, line + b"00")[1], (1, 0))
