"""The names and numbers that the module shares with the C header; each refusal with its symbol and text, and the exception."""

import copy
import ctypes
import pickle
import re
import unittest
from functools import partial

import support
from support import softdemap

from softdemap import Cellular, Modulation, Pam, Psk, Qam, Refusal, Refused

HEADER = (support.REPOSITORY / "include" / "softdemap.h").read_text(encoding="utf-8")
LINE = "01020200030001027FFF000500000003FFFFFFEC"

# What refuses a frame of two symbols of 16-QAM; the symbols' faults are in the second one.
FRAME_FAULTS = {
    Refusal.KIND: {"modulation": Modulation(4, 2, 2)},
    Refusal.BITS_PER_SYMBOL: {"modulation": Qam(2, 7)},
    Refusal.PAYLOAD: {"payload": 0},
    Refusal.WEIGHT: {"weight": 4096},
    Refusal.SHIFT: {"shift": 41},
    Refusal.LIMIT: {"limit": 0},
    Refusal.GAIN: {"gains": [5, 4096]},
    Refusal.SAMPLE: {"yq": [0, -1048577]},
    Refusal.INPUT_LENGTH: {"yi": [1]},
    Refusal.HEADER_WEIGHT: {"weights": [1, 1], "weight": 1},
}


def refused_frame(refusal):
    """The call of a frame that has the fault."""
    arguments = {"modulation": Qam(2, 2), "gains": [5, 6], "yi": [3, 4], "yq": [-20, 7], **FRAME_FAULTS[refusal]}
    return softdemap.demap_frame(**arguments)


# Calls that are refused: the refusal, every one but OUTPUT_TOO_SHORT, the symbol, what the symbol is called, and the call.
REFUSED = [
    (Refusal.LINE_LENGTH, None, "", lambda: softdemap.answer_line(LINE + "0")),
    (Refusal.LINE_CHARACTER, None, "", lambda: softdemap.answer_line(LINE.lower())),
    (Refusal.LINE_LENGTH_FOR_HEADER, None, "", lambda: softdemap.answer_line(LINE + "00")),
    (Refusal.GAIN, 0, "symbol", lambda: softdemap.answer_line(LINE.replace("0005", "1000"))),
    (Refusal.SAMPLE, 0, "symbol", lambda: softdemap.answer_line(LINE.replace("00000003", "00100001"))),
    (Refusal.GAIN, None, "", lambda: softdemap.map_bits(Pam(1), 4096, [1])),
    (Refusal.BIT_BYTE, None, "", lambda: softdemap.map_bits(Pam(1), 1, [0, 1, 2])),
    (Refusal.KIND, None, "", lambda: softdemap.samples_i32(Modulation(4, 1), 0, [])),
    (Refusal.NOT_FINITE, 1, "sample", lambda: softdemap.samples_i32(Qam(2, 2), 0, [1, 1, 1, float("nan")])),
    (Refusal.NOT_FINITE, 0, "sample", lambda: softdemap.samples_i32(Pam(2), 0, [float("nan")])),
    (Refusal.ROUNDS_OUT_OF_RANGE, 2, "sample", lambda: softdemap.samples_i32(Pam(2), 20, [1, 1, 1.5])),
    (Refusal.SCALE, None, "", lambda: softdemap.samples_i32(Pam(2), 21, [])),
    (Refusal.INPUT_LENGTH, None, "", lambda: softdemap.samples_i32(Qam(2, 2), 0, [1.0])),
    (Refusal.NOT_FINITE, None, "", lambda: softdemap.sample_i32(0, float("inf"))),
    (Refusal.ROUNDS_OUT_OF_RANGE, None, "", lambda: softdemap.quadrature_i32(0, 1, 1048577)),
    (Refusal.SCALE, None, "", lambda: softdemap.softs_f32(15, [1])),
]
REFUSED += [
    (Refusal.WEIGHT, 1, "symbol", lambda: softdemap.demap_frame(Pam(1), [1, 1], [0, 0], weights=[1, 0])),
    (Refusal.WEIGHT, 0, "symbol", lambda: softdemap.demap_frame(Pam(1), [1, 1], [0, 0], weights=[4096, 0])),
    (Refusal.INPUT_LENGTH, None, "", lambda: softdemap.demap_frame(Pam(1), [1, 1], [0, 0], weights=[1])),
    (Refusal.KIND, None, "", lambda: softdemap.map_bits(Modulation(0x80, 1), 1, [1])),
    (Refusal.KIND, None, "", lambda: softdemap.samples_i32(Modulation(0x84, 1), 0, [])),
]
for refusal in FRAME_FAULTS:
    symbol, place = (1, "symbol") if refusal in (Refusal.GAIN, Refusal.SAMPLE) else (None, "")
    REFUSED.append((refusal, symbol, place, partial(refused_frame, refusal)))


class Header(unittest.TestCase):
    def test_refusals(self):
        """Names and numbers are those of the enum, texts those of the table before it."""
        names = re.findall(r"SOFTDEMAP_REFUSAL_(\w+) = (\d+)", HEADER)
        self.assertEqual([(name, int(number)) for name, number in names], [(refusal.name, refusal.value) for refusal in Refusal])
        table = HEADER[HEADER.index(" * Refusals") : HEADER.index(" * The first that applies")]
        found = re.findall(r"^ \* +(\d+)  (.*?)(?:  .*)?$", table, re.MULTILINE)
        self.assertEqual([(int(number), text) for number, text in found], [(refusal.value, refusal.text) for refusal in Refusal])

    def test_kinds(self):
        kinds = re.search(r"enum softdemap_kind \{ (.*) \}", HEADER).group(1)
        classes = {"PAM": Pam(1), "QAM": Qam(1, 1), "PSK": Psk(1), "CELLULAR": Cellular(1)}
        self.assertEqual(kinds, ", ".join(f"SOFTDEMAP_{name} = {modulation.kind}" for name, modulation in classes.items()))
        self.assertEqual(set(Modulation.__subclasses__()), set(map(type, classes.values())))

    def test_greatest_sizes(self):
        sizes = dict(re.findall(r"#define SOFTDEMAP_(MAX_\w+) (\d+)", HEADER))
        self.assertEqual(sizes, {name: str(getattr(softdemap, name)) for name in ("MAX_SYMBOLS", "MAX_LINE", "MAX_ANSWER")})

    def test_every_call_of_the_header_is_here(self):
        names = set(re.findall(r"^uint\d+_t softdemap_(\w+)\(", HEADER, re.MULTILINE))
        renamed = {"frame": "demap_frame", "frame_weighted": "demap_frame", "map": "map_bits", "line": "answer_line"}
        self.assertLessEqual({renamed.get(name, name) for name in names}, set(softdemap.__all__))
        self.assertEqual(len(names), 10)


class Refusals(unittest.TestCase):
    def test_each(self):
        for refusal, symbol, place, call in REFUSED:
            with self.subTest(refusal=refusal, symbol=symbol, place=place):
                with self.assertRaises(Refused) as caught:
                    call()
                refused = caught.exception
                self.assertIs(refused.refusal, refusal)
                self.assertEqual((refused.symbol, refused.place), (symbol, place))
        self.assertEqual({case[0] for case in REFUSED}, set(Refusal) - {Refusal.OUTPUT_TOO_SHORT})

    def test_every_symbol_is_named(self):
        for symbol in range(256):
            gains, samples = [1] * 256, [0] * 256
            gains[symbol] = 4096
            self.assertEqual(support.answer_of(softdemap.demap_frame, Pam(1), gains, samples)[1], (10, symbol))

    def test_short_outputs_are_refused_by_15(self):
        """The functions make outputs long enough, so 15 is seen of the library's call alone; it writes nothing."""
        bits, yi = support.array("B", [1, 0]), support.array("i", [77])
        lent = [ctypes.c_uint8.from_buffer(bits), ctypes.c_int32.from_buffer(yi)]
        answer = softdemap._library.softdemap_map(0, 1, 0, 5, ctypes.byref(lent[0]), 2, ctypes.byref(lent[1]), 1, None, 0)
        self.assertEqual((answer, yi[0]), (Refusal.OUTPUT_TOO_SHORT, 77))

    def test_messages(self):
        self.assertEqual(str(Refused(Refusal.GAIN, 0, "symbol")), "refusal 10 at symbol 0: gain above 4095")
        self.assertEqual(str(Refused(Refusal.GAIN)), "refusal 10: gain above 4095")
        with self.assertRaisesRegex(Refused, "^refusal 12 at sample 1: a binary32 number that is infinite or not a number$"):
            softdemap.samples_i32(Pam(1), 0, [0, float("inf")])

    def test_copies(self):
        refused = Refused(Refusal.SAMPLE, 200, "symbol")
        for other in (copy.copy(refused), pickle.loads(pickle.dumps(refused))):
            self.assertIs(other.refusal, Refusal.SAMPLE)
            self.assertEqual((other.symbol, other.place, str(other)), (200, "symbol", str(refused)))
