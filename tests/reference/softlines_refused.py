"""Lines of softlines' input that are refused, and those just within a limit.

A case is a line without its newline and the number it is meant to be answered with: 0 for an accepted line, else the refusal.
"""

from constellations import CELLULAR, KINDS, PAM, PSK, QAM, bits_per_symbol
from draws import fault_sets
from headers import WEIGHTED
from lines import symbol_digits
from written import KIND_FRAMES, QAM_FRAME, SAMPLE, WORKED, LineDraws, has_quadrature, with_symbol, with_weight, written

ORDER = (1, 2, 4, 5, 6, 7, 8, 9, 3, 10, 11)

# The order for a line whose symbols have weights.
WEIGHTED_ORDER = (1, 2, 4, 5, 6, 18, 8, 9, 3, 10, 7, 11)

# Two ways to break each rule of the header.
HEADER_FAULTS = {
    4: ({"kind": max(KINDS) + 1}, {"kind": 127}),
    5: ({"bits_i": 7}, {"bits_q": 0}),
    6: ({"payload": 0}, {"payload": 65535}),
    7: ({"weight": 0}, {"weight": 4096}),
    8: ({"shift": 41}, {"shift": 255}),
    9: ({"limit": 0}, {"limit": 32768}),
    18: ({"weight": 1}, {"weight": 65535}),
}


def with_header_faults(frame, faults, way):
    """Fields or a frame with each rule of the header broken that is named; where symbols have weights, 7 is none of the header."""
    for number in sorted(faults & set(HEADER_FAULTS) - ({7} if frame.weighted else set())):
        changed = dict(HEADER_FAULTS[number][way])
        if number == 4 and frame.weighted:
            changed["kind"] += WEIGHTED
        frame = frame._replace(**changed)
    return frame


def faulted(frame, faults, way):
    """A line of the frame, of two symbols, that breaks each rule named; `way` is 0 or 1."""
    one = symbol_digits(frame)
    gain, sample_i, sample_q = frame.symbols[0]
    if 10 in faults:
        gain = (4096, 65535)[way]
    if 11 in faults:
        sample_i, sample_q = ((SAMPLE + 1, sample_q), (sample_i, -SAMPLE - 1))[way]
    frame = with_symbol(frame, 0, (gain, sample_i, sample_q))
    if 7 in faults and frame.weighted:
        frame = with_weight(frame, 0, (0, 4096)[way])
    line = written(with_header_faults(frame, faults, way))
    if 3 in faults:
        line = (line + b"00", line[:-one])[way]
    if 1 in faults:
        line = (line + b"0", line[:-1])[way]
    if 2 in faults:
        line = line[:-1] + (b"G", b"a")[way]
    return line


def refusal_order():
    """Each rule broken alone, with each later one, and with all later ones."""
    return [(faulted(QAM_FRAME, faults, way), first) for first, sets in fault_sets(ORDER) for way in (0, 1) for faults in sets]


def link_limits():
    """Weight, shift and limit just inside and just outside their ranges."""
    values = {
        "weight": ((0, 1, 2, 4094, 4095, 4096, 4097, 32768, 65535), 1, 4095, 7),
        "shift": ((0, 1, 39, 40, 41, 42, 64, 128, 255), 0, 40, 8),
        "limit": ((0, 1, 2, 32766, 32767, 32768, 32769, 65535), 1, 32767, 9),
    }
    cases = []
    for field, (tried, least, greatest, refusal) in values.items():
        for value in tried:
            wanted = 0 if least <= value <= greatest else refusal
            cases.append((written(WORKED._replace(**{field: value})), wanted))
    return cases


def kinds_and_bits():
    """Each kind number and bit count about the edges, one symbol sent."""
    above = max(KINDS) + 1
    cases = [(written(WORKED._replace(kind=kind)), 4) for kind in (above, above + 1, 16, 127, WEIGHTED + above, 255)]
    tried = (0, 1, 2, 3, 4, 5, 6, 7, 8, 16, 255)
    for kind, most in ((PAM, 6), (PSK, 4)):
        frame = WORKED._replace(kind=kind, payload=1)
        for bits in tried:
            wanted = 0 if 1 <= bits <= most else 5
            cases.append((written(frame._replace(bits_i=bits, bits_q=0)), wanted))
        for bits_q in (1, 2, 6, 16, 255):
            cases.append((written(frame._replace(bits_q=bits_q)), 5))
    for bits in tried:
        wanted = 0 if 1 <= bits <= 6 else 5
        cases.append((written(WORKED._replace(bits_i=bits)), wanted))
        cases.append((written(WORKED._replace(bits_q=bits)), wanted))
    cellular = WORKED._replace(kind=CELLULAR, payload=1)
    for bits in tried:
        for bits_i, bits_q in sorted({(bits, bits), (bits, 2), (2, bits)}):
            wanted = 0 if bits_i == bits_q and 1 <= bits <= 3 else 5
            cases.append((written(cellular._replace(bits_i=bits_i, bits_q=bits_q)), wanted))
    return cases


def payloads():
    """No payload; 256 symbols pass; 257 are refused however many are sent."""
    cases = []
    for modulation in ((PAM, 1, 0), (PAM, 6, 0), (QAM, 3, 2), (PSK, 4, 0), (CELLULAR, 3, 3)):
        most = 256 * bits_per_symbol(modulation)
        full = LineDraws(most).frame(modulation, 256)
        one = full._replace(symbols=full.symbols[:1])
        cases += [(written(full), 0), (written(full._replace(payload=most + 1)), 6)]
        cases.append((written(one._replace(payload=0)), 6))
        cases.append((written(one._replace(payload=0, symbols=())), 6))
        cases.append((written(one._replace(payload=most + 1)), 6))
        cases.append((written(one._replace(payload=most)), 3))
        cases.append((written(one._replace(payload=65535)), 6))
    return cases


def gains():
    """Gains just inside and just outside the range, for each kind."""
    cases = []
    for frame in KIND_FRAMES:
        for gain in (0, 1, 4094, 4095, 4096, 4097, 32768, 65535):
            symbol = (gain, *frame.symbols[0][1:])
            cases.append((written(with_symbol(frame, 0, symbol)), 10 * (gain > 4095)))
    return cases


def samples():
    """Samples just inside and just outside the range, on each axis."""
    tried = [SAMPLE, SAMPLE + 1, 0x7FFFFFFF, 0x01000000]
    tried += [-SAMPLE, -SAMPLE - 1, -0x80000000, -0x7FFFFFFF]
    cases = []
    for frame in KIND_FRAMES:
        gain, sample_i, sample_q = frame.symbols[0]
        for value in tried:
            wanted = 11 * (abs(value) > SAMPLE)
            line = written(with_symbol(frame, 0, (gain, value, sample_q)))
            cases.append((line, wanted))
            if has_quadrature(frame.kind):
                line = written(with_symbol(frame, 0, (gain, sample_i, value)))
                cases.append((line, wanted))
    return cases


def later_symbols():
    """Faults behind the first symbol; the first faulty symbol decides."""
    cases = []
    for modulation, count in (((PAM, 4, 0), 6), ((QAM, 2, 4), 6), ((PSK, 4, 0), 256), ((CELLULAR, 2, 2), 7)):
        frame = LineDraws(count).frame(modulation, count, padding=3)
        loud, far, both = (4096, 0, 0), (1, -SAMPLE - 1, 0), (65535, SAMPLE + 1, 0)
        for place in (1, count // 2, count - 1):
            cases.append((written(with_symbol(frame, place, loud)), 10))
            cases.append((written(with_symbol(frame, place, far)), 11))
        cases.append((written(with_symbol(frame, 2, both)), 10))
        late_loud = with_symbol(frame, count - 1, loud)
        cases.append((written(with_symbol(late_loud, 2, far)), 11))
        late_far = with_symbol(frame, count - 1, far)
        cases.append((written(with_symbol(late_far, 2, loud)), 10))
        if has_quadrature(modulation[0]):
            cases.append((written(with_symbol(frame, 3, (0, 0, SAMPLE + 1))), 11))
    return cases
