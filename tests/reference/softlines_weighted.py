"""Lines of softlines' input whose symbols have weights, accepted and refused; cases as in softlines_refused."""

from constellations import CELLULAR, MODULATIONS, PAM, PSK, QAM, bits_per_symbol
from draws import fault_sets
from headers import WEIGHTED
from softlines_refused import WEIGHTED_ORDER, faulted
from worked import WEIGHTED_LINES
from written import QAM_FRAME, SAMPLE, WEIGHTED_FRAMES, WORKED, LineDraws, filled, one_weight, weighted, with_symbol, with_weight, written

# The ends of the range of weights, and what is just outside.
WEIGHTS = (0, 1, 2, 4094, 4095, 4096, 4097, 32768, 65535)

ONE = weighted(WORKED, (1,))


def worked_cases():
    """The worked lines with weights."""
    return [(line, int(answer[:2], 16)) for line, answer in WEIGHTED_LINES]


def each_modulation():
    """Every modulation: one symbol, then several of which the last has padding."""
    cases = []
    for seed, modulation in enumerate(MODULATIONS):
        draws = LineDraws(7000 + seed)
        frames = draws.frame(modulation, 1), draws.frame(modulation, draws.between(3, 12), draws.between(0, bits_per_symbol(modulation) - 1))
        cases += [(written(draws.weighted(frame)), 0) for frame in frames]
    return cases


def each_padding():
    """Two symbols with every count of padding bits."""
    cases = []
    for modulation in ((PAM, 6, 0), (QAM, 3, 5), (PSK, 4, 0), (CELLULAR, 3, 3)):
        for padding in range(bits_per_symbol(modulation)):
            draws = LineDraws(7100 + padding)
            cases.append((written(draws.weighted(draws.frame(modulation, 2, padding))), 0))
    return cases


def full_frames():
    """256 symbols of each kind, with and without padding."""
    draws = LineDraws(7200)
    chosen = (((PAM, 3, 0), 2), ((QAM, 1, 1), 1), ((QAM, 6, 6), 0), ((PSK, 3, 0), 0), ((CELLULAR, 2, 2), 3))
    return [(written(draws.weighted(draws.frame(modulation, 256, padding))), 0) for modulation, padding in chosen]


def one_for_all():
    """A frame of each kind whose symbols have one weight, and the plain frame that it is read as."""
    cases = []
    for modulation in ((PAM, 3, 0), (QAM, 2, 3), (PSK, 4, 0), (CELLULAR, 2, 2)):
        frame = LineDraws(7300).frame(modulation, 9, 1)
        cases += [(written(frame), 0), (written(one_weight(frame)), 0)]
    return cases


def one_symbol_weighted():
    """Frames of equal symbols of which one has the greatest weight, and the others the least."""
    cases = []
    for modulation, shift in (((PAM, 2, 0), 6), ((QAM, 1, 2), 6), ((PSK, 2, 0), 8), ((CELLULAR, 1, 1), 6)):
        for place in range(4):
            frame = filled(modulation, [(9, 55, -40)] * 4, 1, shift, 32767)
            cases.append((written(weighted(frame, [4095 if at == place else 1 for at in range(4)])), 0))
    return cases


def halves():
    """Sweeps through weights and samples that give exact halves of both signs and the values beside them."""
    cases = []
    weights = range(1, 102)
    for sample in (-1, 1):
        for modulation, size, shift in (((PAM, 1, 0), 1, 3), ((QAM, 1, 1), 1, 4), ((CELLULAR, 1, 1), 1, 3), ((PSK, 1, 0), 1, 3), ((PSK, 2, 0), 512, 9)):
            frame = filled(modulation, [(1, sample * size, -3 * sample * size)] * len(weights), 1, shift, 32767)
            cases.append((written(weighted(frame, weights)), 0))
    return cases


def far_corners():
    """The greatest gain, weight and samples, at every kind's shift that shows them, at none and at the greatest."""
    cases = []
    symbols = [(4095, SAMPLE, -SAMPLE), (4095, -SAMPLE, SAMPLE), (0, SAMPLE, SAMPLE)]
    for modulation in ((PAM, 6, 0), (QAM, 6, 6), (PSK, 1, 0), (PSK, 4, 0), (CELLULAR, 3, 3)):
        for shift in (0, 32, 38, 40):
            for weights in ((4095, 4095, 4095), (1, 4095, 4095), (4095, 1, 1)):
                cases.append((written(weighted(filled(modulation, symbols, 1, shift, 32767), weights)), 0))
    return cases


def each_shift():
    """Every shift, with gains, samples and weights that it leaves visible."""
    cases = []
    for shift in range(41):
        draws = LineDraws(7400 + shift)
        part = min(12, (shift + 11) // 3)
        modulation = ((PAM, 2, 0), (QAM, 1, 2), (PSK, 2, 0), (CELLULAR, 2, 2))[shift % 4]
        symbols = [draws.symbol(min(20, shift + 11 - 2 * part), part) for _ in range(5)]
        weights = [draws.between(1, 2**part - 1) for _ in symbols]
        cases.append((written(weighted(filled(modulation, symbols, 1, shift, 32767), weights)), 0))
    return cases


def refusal_order():
    """Each rule broken alone, with each later one, and with all later ones."""
    frame = one_weight(QAM_FRAME)
    return [(faulted(frame, faults, way), first) for first, sets in fault_sets(WEIGHTED_ORDER) for way in (0, 1) for faults in sets]


def header_weights():
    """Weights in the header of a line whose symbols have weights; shift and limit just inside and just outside their ranges."""
    cases = [(written(ONE._replace(weight=weight)), 18 if weight else 0) for weight in WEIGHTS]
    cases += [(written(ONE._replace(shift=shift)), 0 if shift <= 40 else 8) for shift in (0, 40, 41, 255)]
    return cases + [(written(ONE._replace(limit=limit)), 0 if 1 <= limit <= 32767 else 9) for limit in (0, 1, 32767, 32768)]


def symbol_weights():
    """Weights of symbols just inside and just outside the range, for each kind."""
    cases = []
    for frame in WEIGHTED_FRAMES:
        for place in (0, 1):
            for weight in WEIGHTS:
                cases.append((written(with_weight(frame, place, weight)), 0 if 1 <= weight <= 4095 else 7))
    return cases


def kinds_and_bits():
    """Kind numbers and bit counts about the edges, one symbol sent."""
    one = ONE._replace(payload=1)
    bad = [(0, 0, 0), (0, 7, 0), (0, 2, 1), (1, 0, 2), (1, 7, 2), (1, 2, 7), (2, 0, 0), (2, 5, 0), (2, 2, 2), (3, 1, 2), (3, 4, 4), (3, 2, 0)]
    bad = [(numbers, 5) for numbers in bad] + [((kind, 2, 2), 4) for kind in (4, 5, 16, 126, 127)]
    good = [(numbers, 0) for numbers in ((0, 1, 0), (0, 6, 0), (1, 1, 6), (1, 6, 1), (2, 1, 0), (2, 4, 0), (3, 1, 1), (3, 3, 3))]
    cases = [(written(one._replace(kind=kind + WEIGHTED, bits_i=bits_i, bits_q=bits_q)), number) for (kind, bits_i, bits_q), number in bad + good]
    # The kind alone says what else is in the line.
    plain = WORKED._replace(payload=1)
    return cases + [(written(plain._replace(kind=plain.kind + WEIGHTED)), 18), (written(plain._replace(kind=plain.kind + WEIGHTED, weight=0)), 3)]


def later_symbols():
    """Faults behind the first symbol: the first faulty symbol decides, and in a symbol the gain, then the weight, then the sample."""
    cases = []
    for modulation, count in (((PAM, 4, 0), 6), ((QAM, 2, 4), 6), ((PSK, 4, 0), 256), ((CELLULAR, 2, 2), 7)):
        draws = LineDraws(7500 + count)
        frame = draws.weighted(draws.frame(modulation, count, padding=3))
        loud, far = (4096, 0, 0), (1, -SAMPLE - 1, 0)
        for place in (1, count // 2, count - 1):
            for weight in (0, 4096):
                light = with_weight(frame, place, weight)
                cases += [(written(light), 7), (written(with_symbol(light, place, far)), 7), (written(with_symbol(light, place, loud)), 10)]
        late = with_weight(frame, count - 1, 65535)
        cases += [(written(with_symbol(late, 2, far)), 11), (written(with_symbol(late, 2, loud)), 10)]
        early = with_weight(frame, 1, 0)
        cases += [(written(with_symbol(early, 2, far)), 7), (written(with_symbol(early, 2, loud)), 7)]
    return cases
