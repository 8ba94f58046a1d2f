"""The worked cases (REQUIREMENTS, "Cases at the edges"), which the reference must answer as stated."""

import sys

import captures
import lines
from constellations import CELLULAR, PAM, PSK, QAM, constellation_of, gray_label, levels, psk_points
from frames import Frame, probes, read_frame
from headers import WEIGHTED
from messages import map_bits
from search import decided

LINE = b"01020200030001027FFF000500000003FFFFFFEC"
ANSWER = b"000006FFF1FFDD0096"
CELLULAR_LINES = (
    (b"03020200040001027FFF000500000003FFFFFFEC", b"000006000FFF6A0023FFCE"),
    (b"03020200030001027FFF000500000003FFFFFFEC", b"000006000FFF6A0023"),
    (b"0303030006000104007F000A0000002DFFFFFFC4", b"000008007FFF81FFF3FFCE00260000"),
)
# Lines whose symbols have weights: 16-QAM with 1, then with 3 and 7, QPSK with 2; a weight in the header, and the weight 0, with their refusals.
WEIGHTED_LINES = (
    (b"81020200030000027FFF0005000100000003FFFFFFEC", b"000006FFF1FFDD0096"),
    (b"81020200060000027FFF0005000300000003FFFFFFEC0005000700000003FFFFFFEC", b"00000CFFD3FF9701C20096FF97FF0B"),
    (b"82020000020000007FFF000100020000000100000002", b"000003000B0006"),
    (b"81020200030001027FFF0005000100000003FFFFFFEC", b"12"),
    (b"81020200030000027FFF0005000000000003FFFFFFEC", b"07"),
)


def expect(what, found, wanted):
    """Ends the program if a case comes out otherwise."""
    if found != wanted:
        sys.exit(f"{what}: found {found}, wanted {wanted}")


def check_symbol(what, modulation, symbol, scale=(1, 0, 32767), n=None, soft=None, index=()):
    """One symbol, whose differences, soft values and first probe indices are stated."""
    gain, sample_i, sample_q = symbol
    yq = [] if modulation[0] == PAM else [sample_q]
    frame = Frame(*modulation, modulation[1] + modulation[2], *scale, [gain], [], [sample_i], yq)
    (_, found_soft, found_index, _), _ = read_frame(frame)
    if n is not None:
        expect(f"{what}, N", decided(constellation_of(modulation).points, symbol)[1], n)
    if soft is not None:
        expect(f"{what}, soft values", found_soft, soft)
    expect(f"{what}, probes", found_index[: len(index)], list(index))


def check_points():
    """Labels as published, levels, and the points of a circle by quarter turns."""
    expect("label of 8-PAM index 2", gray_label(2, 3), [0, 1, 1])
    expect("label of 8-PSK index 1", gray_label(1, 3), [0, 0, 1])
    expect("4-PAM levels", levels(2), [-3, -1, 1, 3])
    circle = [(15137, 6270), (6270, 15137), (-6270, 15137), (-15137, 6270)]
    expect("8-PSK points", psk_points(3), circle + [(-u, -v) for u, v in circle])
    expect("QAM points", len(constellation_of((QAM, 6, 6)).points.labels), 4096)
    expect("16-QAM, 0, 1, 1, 1 at gain 2", map_bits((QAM, 2, 2), 2, [0, 1, 1, 1]), (([-2], [2]), None))
    expect("8-PSK, index 7, at gain 9", map_bits((PSK, 3, 0), 9, [1]), (([15137], [-6270]), None))


def check_symbols():
    pam2, pam8, psk8, psk16 = (PAM, 1, 0), (PAM, 3, 0), (PSK, 3, 0), (PSK, 4, 0)
    check_symbol("8-PAM", pam8, (10, -33, 0), (1, 3, 127), [1840, -280, -520], [127, -35, -65], (2, 4, 1, 3))
    for sample in (0, 1, -77, 1048576):
        check_symbol("8-PAM, gain 0", pam8, (0, sample, 0), (1, 3, 127), [0, 0, 0], [0, 0, 0], (0, 4, 2, 1))
    check_symbol("2-PAM, a tie", pam2, (4, 0, 0), (1, 0, 127), [0], [0], (0,))
    check_symbol("2-PAM, a half", pam2, (1, -3, 0), (1, 3, 127), [12], [2])
    check_symbol("2-PAM, a half", pam2, (1, 3, 0), (1, 3, 127), [-12], [-2])
    check_symbol("8-PSK", psk8, (1, 100, 0), soft=[0, 261, 108], index=(0, 7))
    check_symbol("16-PSK", psk16, (1, 100000, 41418), index=(1,))
    expect("probes of the line", len(probes((QAM, 2, 2), (5, 3, -20))), 6)


def check_cellular():
    """The axis labels of 3GPP TS 36.211, its points of QPSK and some of 16QAM, a symbol, lines with and without padding, and messages."""
    labels = constellation_of((CELLULAR, 3, 3)).parts[0].points.labels
    expect("64QAM, labels of an axis", ["".join(map(str, label)) for label in labels], "111 110 100 101 001 000 010 011".split())
    qpsk, qam16, qam64 = (CELLULAR, 1, 1), (CELLULAR, 2, 2), (CELLULAR, 3, 3)
    expect("QPSK, 00 01 10 11", map_bits(qpsk, 1, [0, 0, 0, 1, 1, 0, 1, 1]), (([1, 1, -1, -1], [1, -1, 1, -1]), None))
    expect("16QAM, 0001 0010 0100", map_bits(qam16, 1, [0, 0, 0, 1, 0, 0, 1, 0, 0, 1, 0, 0]), (([1, 3, 1], [3, 1, -1]), None))
    expect("16QAM, padding", map_bits(qam16, 5, [0, 1, 1, 0, 1]), (([15, -5], [-5, 5]), None))
    expect("64QAM, padding", map_bits(qam64, 1, [1, 0, 1, 0, 0]), (([-5], [3]), None))
    check_symbol("16QAM", qam16, (5, 3, -20), (1, 2, 32767), [60, -600, 140, -200], [15, -150, 35, -50], (2, 1, 3, 0, 2, 1))
    for line, answer in CELLULAR_LINES:
        expect(f"line {line}", lines.answer_line(line), (answer, None))


def check_weights():
    """Lines with weights; the orders 10, 7, 11 in a symbol, and that one weight for all is read as a plain frame."""
    for line, answer in WEIGHTED_LINES:
        expect(f"line {line}", lines.printed(line), answer)
    plain = Frame(PAM, 2, 0, 6, 9, 3, 1000, [10, 12, 4], [], [-33, 7, 2], [])
    frame = plain._replace(kind=PAM + WEIGHTED, weight=0, weights=[9, 9, 9])
    expect("one weight for all", read_frame(frame), read_frame(plain))
    expect("a weight for each", read_frame(frame._replace(weights=[9, 9, 4]))[0][2:], read_frame(plain)[0][2:])
    expect("a plain kind with weights", read_frame(plain._replace(weights=[9, 9, 9]))[1], (16, 0))
    expect("a weight too few", read_frame(frame._replace(weights=[9, 9]))[1], (16, 0))
    expect("kind 84", read_frame(frame._replace(kind=WEIGHTED + 4))[1], (4, 0))
    expect("7", read_frame(frame._replace(weights=[9, 4096, 0], yi=[0, 0, 1048577]))[1], (7, 1))
    expect("7 and 11", read_frame(frame._replace(weights=[9, 0, 9], yi=[0, -1048577, 0]))[1], (7, 1))
    expect("10, 7 and 11", read_frame(frame._replace(gains=[1, 4096, 1], weights=[9, 0, 9], yi=[0, -1048577, 0]))[1], (10, 1))
    expect("11 before 7", read_frame(frame._replace(weights=[9, 9, 0], yi=[0, -1048577, 0]))[1], (11, 1))
    expect("mapping, kind 80", map_bits((PAM + WEIGHTED, 1, 0), 1, [1]), (None, (4, 0)))


def check_limits():
    """256 symbols and w = 4095 pass; 257 give 6, and 4096 gives 7."""
    frame = Frame(PAM, 1, 0, 256, 4095, 0, 1, [1] * 256, [], [0] * 256, [])
    expect("256 symbols, w = 4095", read_frame(frame)[1], None)
    expect("257 symbols", read_frame(frame._replace(payload=257))[1], (6, 0))
    expect("w = 4096", read_frame(frame._replace(weight=4096))[1], (7, 0))


def check_lines():
    """The worked line, how an input is split, and the answer to no input."""
    expect("the worked line", lines.answer_line(LINE), (ANSWER, None))
    expect("no input", lines.answers(b""), b"")
    expect("two empty lines", lines.answers(b"\n\n"), b"01\n01\n")
    expect("a last line", lines.answers(LINE), ANSWER + b"\n")
    expect("two lines", lines.answers(b"\n" + LINE + b"\n"), b"01\n" + ANSWER + b"\n")


def check_captures():
    """2.5, 3.5, 1048576.5 and 1048576.75 at the scale 0; numbers that are not finite; soft values out."""
    expect("2.5", captures.read_sample(0, [0x40200000]), ([2], None))
    expect("3.5", captures.read_sample(0, [0x40600000]), ([4], None))
    expect("1048576.5", captures.read_sample(0, [0x49800004]), ([1048576], None))
    expect("1048576.75", captures.read_sample(0, [0x49800006]), (None, (13, 0)))
    expect("minus infinity", captures.read_sample(0, [0xFF800000]), (None, (12, 0)))
    expect("a NaN", captures.read_sample(20, [0x7F800001]), (None, (12, 0)))
    expect("a pair, kind 81", captures.read_capture(QAM + WEIGHTED, 0, [0x40200000, 0x40600000]), (([2], [4]), None))
    expect("a capture, kind 84", captures.read_capture(WEIGHTED + 4, 0, []), (None, (4, 0)))
    expect("-3 at the scale 1", captures.write_softs(1, [-3, 0]), ([0xBFC00000, 0], None))


def check_worked_cases():
    for check in (check_points, check_symbols, check_cellular, check_weights, check_limits, check_lines, check_captures):
        check()
