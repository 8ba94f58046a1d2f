"""Lines of softlines' input that are accepted; cases as in softlines_refused."""

from constellations import CELLULAR, MODULATIONS, PAM, PSK, QAM, bits_per_symbol, psk_points
from written import PAM_FRAME, SAMPLE, WORKED, LineDraws, filled, written


def worked_cases():
    """The worked cases that a line can carry (REQUIREMENTS, "Cases at the edges")."""
    pam8, pam2, psk8, psk16 = (PAM, 3, 0), (PAM, 1, 0), (PSK, 3, 0), (PSK, 4, 0)
    cellular16, cellular64 = (CELLULAR, 2, 2), (CELLULAR, 3, 3)
    frames = [
        WORKED,
        filled(pam8, [(10, -33, 0)], 1, 3, 127),
        filled(pam8, [(0, y, 0) for y in (0, 1, -77, SAMPLE, -SAMPLE)], 1, 3, 127),
        filled(pam2, [(4, 0, 0)], 1, 0, 127),
        filled(psk8, [(1, 100, 0)], 1, 0, 32767),
        filled(psk16, [(1, 100000, 41418)], 1, 0, 32767),
        filled(pam2, [(1, -3, 0), (1, 3, 0)], 1, 3, 127),
        filled(cellular16, [(5, 3, -20)], 1, 2, 32767),
        filled(cellular16, [(5, 3, -20)], 1, 2, 32767, padding=1),
        filled(cellular64, [(10, 45, -60)], 1, 4, 127),
    ]
    return [(written(frame), 0) for frame in frames]


def each_modulation():
    """Every modulation: one symbol, then several of which the last has padding."""
    cases = []
    for seed, modulation in enumerate(MODULATIONS):
        draws = LineDraws(1000 + seed)
        bits = bits_per_symbol(modulation)
        cases.append((written(draws.frame(modulation, 1)), 0))
        padding = draws.between(min(1, bits - 1), bits - 1)
        frame = draws.frame(modulation, draws.between(3, 12), padding)
        cases.append((written(frame), 0))
    return cases


def each_padding():
    """Two symbols with every count of padding bits."""
    cases = []
    for modulation in ((PAM, 6, 0), (QAM, 3, 5), (QAM, 6, 1), (PSK, 4, 0), (CELLULAR, 2, 2), (CELLULAR, 3, 3)):
        for padding in range(bits_per_symbol(modulation)):
            frame = LineDraws(2000 + padding).frame(modulation, 2, padding)
            cases.append((written(frame), 0))
    return cases


def full_frames():
    """256 symbols: QAM with the most padding, the other kinds with none."""
    draws = LineDraws(3000)
    chosen = [modulation for modulation in MODULATIONS if modulation[0] != QAM]
    cases = [(written(draws.frame(each, 256)), 0) for each in chosen]
    for bits_i, bits_q in ((1, 1), (1, 6), (6, 1), (2, 5), (5, 2), (3, 3), (6, 6)):
        frame = draws.frame((QAM, bits_i, bits_q), 256, bits_i + bits_q - 1)
        cases.append((written(frame), 0))
    cases.append((written(draws.frame((QAM, 6, 6), 256)), 0))
    return cases


def far_corners():
    """The greatest gain, weight and samples, in every modulation."""
    ends = (-SAMPLE, 0, SAMPLE)
    cases = []
    for modulation in MODULATIONS:
        shift = 32 if modulation[0] == PSK else 32 + max(modulation[1:])
        symbols = [(4095, sample_i, sample_q) for sample_i in ends for sample_q in ends]
        frame = filled(modulation, symbols, 4095, shift, 32767)
        cases.append((written(frame), 0))
    for modulation in ((PAM, 6, 0), (QAM, 6, 6), (PSK, 1, 0), (PSK, 4, 0), (CELLULAR, 3, 3)):
        symbols = [(4095, SAMPLE, -SAMPLE), (4095, -SAMPLE, SAMPLE)]
        cases.append((written(filled(modulation, symbols, 4095, 0, 32767)), 0))
        cases.append((written(filled(modulation, symbols, 4095, 40, 32767)), 0))
    return cases


def each_shift():
    """Every shift, with gains, samples and weights that it leaves visible."""
    cases = []
    for shift in range(41):
        draws = LineDraws(4000 + shift)
        part = min(12, (shift + 11) // 3)
        reach = min(20, shift + 11 - 2 * part)
        modulation = ((PAM, 2, 0), (QAM, 1, 2), (PSK, 2, 0), (CELLULAR, 2, 2))[shift % 4]
        symbols = [draws.symbol(reach, part) for _ in range(5)]
        weight = draws.between(2 ** (part - 1), 2**part - 1)
        cases.append((written(filled(modulation, symbols, weight, shift, 32767)), 0))
    return cases


def zero_gains():
    """Gain 0, alone and between other gains: every soft value is 0."""
    cases = []
    for modulation in ((PAM, 6, 0), (QAM, 6, 6), (QAM, 1, 3), (PSK, 1, 0), (PSK, 4, 0), (CELLULAR, 1, 1), (CELLULAR, 3, 3)):
        symbols = [(0, 0, 0), (0, SAMPLE, -SAMPLE), (7, 13, -29), (0, -5, 77)]
        cases.append((written(filled(modulation, symbols, 4095, 0, 32767)), 0))
    return cases


def level_ties():
    """Samples midway between levels and one to either side."""
    cases = []
    for bits in range(1, 7):
        gain, half = 9 + bits, 2 ** (bits - 1)
        middles = [2 * gain * step for step in range(-half, half + 1)]
        near = [middle + side for middle in middles for side in (-1, 0, 1)]
        symbols = [(gain, sample, 0) for sample in near]
        cases.append((written(filled((PAM, bits, 0), symbols, 7, 4, 32767)), 0))
        back = reversed(near)
        symbols = [(gain, sample_i, sample_q) for sample_i, sample_q in zip(near, back)]
        two_axes = [(QAM, bits, 7 - bits)] + [(CELLULAR, bits, bits)] * (bits <= 3)
        cases += [(written(filled(modulation, symbols, 7, 4, 32767)), 0) for modulation in two_axes]
    return cases


def angle_ties():
    """PSK samples as near to one point as to the next, and one off on each axis."""
    cases = []
    for bits in range(1, 5):
        points = psk_points(bits)
        symbols = []
        for (u, v), (next_u, next_v) in zip(points, points[1:] + points[:1]):
            # At right angles to the line from the point to the next.
            tie_i, tie_q = next_v - v, u - next_u
            for off_i, off_q in ((0, 0), (1, 0), (-1, 0), (0, 1), (0, -1)):
                symbols.append((3000, tie_i + off_i, tie_q + off_q))
        for shift in (12, 19):
            frame = filled((PSK, bits, 0), symbols, 4095, shift, 32767)
            cases.append((written(frame), 0))
        symbols = [(5, 0, 0), (5, 40, 40), (5, -40, 40), (5, 40, -40), (5, -40, -40)]
        cases.append((written(filled((PSK, bits, 0), symbols, 3, 2, 32767)), 0))
    return cases


def tangent_edges():
    """16-PSK samples between 22.5 degrees and the tie of the rounded points."""
    cases = []
    for long, short, shift in ((100000, 41418, 0), (590600, 244617, 3)):
        symbols = []
        for sign_i in (1, -1):
            for sign_q in (1, -1):
                symbols.append((1, sign_i * long, sign_q * short))
                symbols.append((1, sign_i * short, sign_q * long))
        cases.append((written(filled((PSK, 4, 0), symbols, 1, shift, 32767)), 0))
    return cases


def halves():
    """Sweeps through exact halves of both signs and the values beside them."""
    cases = []
    sweep = range(-100, 101)
    for bits, shift in ((1, 3), (1, 4), (1, 5), (2, 3), (3, 3), (6, 5)):
        symbols = [(1, sample, 0) for sample in sweep]
        cases.append((written(filled((PAM, bits, 0), symbols, 1, shift, 32767)), 0))
    symbols = [(1, sample, 7 * sample) for sample in sweep]
    cases.append((written(filled((QAM, 2, 3), symbols, 3, 5, 32767)), 0))
    cases.append((written(filled((CELLULAR, 2, 2), symbols, 3, 5, 32767)), 0))
    symbols = [(1, 3, sample) for sample in sweep]
    cases.append((written(filled((PSK, 1, 0), symbols, 1, 3, 32767)), 0))
    cases.append((written(filled((PSK, 1, 0), symbols, 1, 4, 32767)), 0))
    for bits in (2, 3, 4):
        symbols = [(1, 512 * step, 0) for step in range(-25, 26)]
        symbols += [(1, 0, 512 * step + side) for step in range(-25, 26) for side in (0, 1)]
        cases.append((written(filled((PSK, bits, 0), symbols, 1, 0, 32767)), 0))
    return cases


def limits_met():
    """Soft values at the limit, one beside it, and halves on either side of it."""
    cases = []
    for limit in (1, 2, 127, 32766, 32767):
        # With gain 1 and shift 2 an axis of one bit has soft value -y, with cellular labels y, and PSK yQ.
        whole = [sign * (limit + by) for by in (-1, 0, 1) for sign in (1, -1)]
        half = [sign * (2 * limit + by) for by in (-1, 0, 1) for sign in (1, -1)]
        for shift, values in ((2, whole), (3, half)):
            symbols = [(1, value, value) for value in values]
            for modulation in ((PAM, 1, 0), (QAM, 1, 1), (PSK, 1, 0), (CELLULAR, 1, 1)):
                frame = filled(modulation, symbols, 1, shift, limit)
                cases.append((written(frame), 0))
    for modulation in ((QAM, 3, 2), (PSK, 4, 0), (CELLULAR, 3, 3)):
        symbols = LineDraws(5000).frame(modulation, 12).symbols
        cases += [(written(filled(modulation, symbols, 4095, 0, top)), 0) for top in (1, 99)]
    return cases


def any_frames():
    """Frames of any modulation and length drawn at random."""
    draws = LineDraws(6000)
    cases = []
    for _ in range(40):
        modulation = draws.one_of(MODULATIONS)
        frame = draws.frame(modulation, draws.between(1, 60), draws.between(0, bits_per_symbol(modulation) - 1))
        cases.append((written(frame), 0))
    return cases


def last_line():
    """An accepted line; it ends the input without a newline."""
    return [(written(PAM_FRAME), 0)]
