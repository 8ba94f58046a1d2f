"""Binary32 calls for the tests of the hosts, each with the answer number it is meant to get, or None."""

from capture_draws import PARTICULAR, SIGN, half
from captures import MOST_SAMPLE, MOST_SCALE, MOST_SOFT_SCALE, is_kind, pattern_of, width_of
from draws import fault_sets

SCALES = range(MOST_SCALE + 1)
ABOVE = range(MOST_SCALE + 1, 256)
SOFT_SCALES = range(MOST_SOFT_SCALE + 1)
ORDER = (14, 4, 16, 15, 12, 13)

# The kind numbers, those with what is added for weights among them, and all others.
KINDS = [kind for kind in range(256) if is_kind(kind)]
NO_KINDS = [kind for kind in range(256) if not is_kind(kind)]


# Single samples: (scale, patterns, wanted)


def around(patterns, reach):
    """Patterns with their neighbours, of both signs."""
    return [(pattern + by) % SIGN | sign for pattern in patterns for by in range(-reach, reach + 1) for sign in (0, SIGN)]


def single_samples(draws):
    """Every exponent, halves behind even and odd numbers, whole numbers, both ends, and numbers of each answer, at every scale."""
    for scale in SCALES:
        patterns = [top << 23 | fraction for top in range(512) for fraction in (draws.one_of((0, 1, 0x7FFFFF)), draws.bits(23))]
        patterns += around([half(whole, scale) for whole in [*range(16), *(draws.between(0, MOST_SAMPLE) for _ in range(20))]], 1)
        patterns += around([pattern_of(draws.between(1, MOST_SAMPLE), scale) for _ in range(10)], 1)
        patterns += around([pattern_of(quarters, scale + 2) for quarters in range(4 * MOST_SAMPLE - 4, 4 * MOST_SAMPLE + 5)], 3)
        patterns += around(PARTICULAR, 0)
        for pattern in patterns:
            yield scale, [pattern], None
    for scale in ABOVE:
        yield scale, [draws.number(20)], 14


def quadrature_samples(draws):
    """Numbers of every answer in phase with those of every answer in quadrature."""
    sorts = ((0, draws.good), (13, draws.outside), (12, draws.not_finite))
    for scale in SCALES:
        for in_phase, first in sorts:
            for quadrature, second in sorts:
                for _ in range(30):
                    yield scale, [first(scale), second(scale)], in_phase or quadrature
    for scale in ABOVE:
        yield scale, [draws.number(20), draws.number(20)], 14


# Captures: (kind, scale, patterns, rooms, wanted)


def rooms_for(draws, kind, patterns):
    """Rooms long enough; any in quadrature where the kind has none."""
    width = width_of(kind) if is_kind(kind) else 2
    return [draws.enough(len(patterns) // width), draws.enough(len(patterns) // width) if width == 2 else draws.one_of((0, 0, 70))]


def good_captures(draws):
    """Every scale, kind and many lengths without fault, also none and one of thousands; other kinds are refused."""
    for scale in SCALES:
        for kind in KINDS:
            for count in (0, 1, 2, 3, draws.between(4, 16), draws.between(17, 70), 70, 4099 if scale == 7 else 71):
                patterns = [draws.good(scale) for _ in range(count * width_of(kind))]
                yield kind, scale, patterns, rooms_for(draws, kind, patterns), 0
    for kind in NO_KINDS:
        patterns = [draws.number(3) for _ in range(draws.between(0, 5))]
        yield kind, 3, patterns, rooms_for(draws, kind, patterns), 4


def bad_at_every_place(draws):
    """One number that is refused, at every place of captures of every small length."""
    for kind in KINDS:
        for count in range(1, 20):
            for place in range(count * width_of(kind)):
                scale = draws.between(0, MOST_SCALE)
                patterns = [draws.good(scale) for _ in range(count * width_of(kind))]
                number, bad = draws.one_of(((12, draws.not_finite), (13, draws.outside)))
                patterns[place] = bad(scale)
                yield kind, scale, patterns, rooms_for(draws, kind, patterns), number


def broken(draws, faults, kind):
    """A capture of pairs that breaks each rule named; the number of 12 stands in an earlier sample than that of 13."""
    scale = draws.between(0, MOST_SCALE)
    patterns = [draws.good(scale) for _ in range(12)]
    if 12 in faults:
        patterns[draws.between(0, 5)] = draws.not_finite(scale)
    if 13 in faults:
        patterns[draws.between(6, 11)] = draws.outside(scale)
    rooms = [6, 6]
    if 15 in faults:
        rooms[draws.between(0, 1)] = draws.between(0, 5)
    if 16 in faults:
        patterns = patterns[:-1] if draws.once_in(2) else patterns + [0]
    return draws.one_of(NO_KINDS) if 4 in faults else kind, draws.between(21, 255) if 14 in faults else scale, patterns, rooms


def captures_in_order(draws):
    """Each rule broken alone, with each later one, and with all later ones."""
    kinds = [kind for kind in KINDS if width_of(kind) == 2]
    for first, sets in fault_sets(ORDER):
        for faults in sets:
            for _ in range(10):
                yield (*broken(draws, faults, draws.one_of(kinds)), first)


def any_captures(draws):
    """Numbers of every answer, kinds, scales, lengths and rooms, in and out of range."""
    for _ in range(6000):
        kind, scale = draws.one_of((*KINDS, *KINDS, 255)), draws.scale(MOST_SCALE)
        good = min(scale, MOST_SCALE)
        patterns = [draws.good(good) for _ in range(draws.between(0, 30))]
        for _ in range(draws.between(0, 3) if patterns else 0):
            patterns[draws.between(0, len(patterns) - 1)] = draws.number(scale)
        rooms = rooms_for(draws, kind, patterns)
        if draws.once_in(6):
            rooms[draws.between(0, 1)] = draws.between(0, 16)
        yield kind, scale, patterns, rooms, None


def captures(draws):
    for group in (good_captures, bad_at_every_place, captures_in_order, any_captures):
        yield from group(draws)


# Soft values: (scale, values, room, wanted)


def single_softs(draws):
    """Powers of two with their neighbours and many others, at every scale."""
    chosen = sorted({sign * (2**power + by) for sign in (-1, 1) for power in range(15) for by in (-1, 0, 1)} | {-32768, -32767})
    for scale in SOFT_SCALES:
        for value in chosen + [draws.soft() for _ in range(200)]:
            yield scale, [value], 1, 0
    for scale in range(MOST_SOFT_SCALE + 1, 256):
        yield scale, [draws.soft()], 1, 14


def soft_buffers(draws):
    """Every soft value at every scale in one buffer; short ones of many lengths and rooms."""
    for scale in SOFT_SCALES:
        yield scale, range(-32768, 32768), draws.enough(65536), 0
        for count in [*range(0, 20), *(draws.between(20, 70) for _ in range(20))]:
            values = [draws.soft() for _ in range(count)]
            yield scale, values, draws.enough(count), 0
            yield scale, values, draws.between(0, max(0, count - 1)), 15 if count else 0
    for scale in range(MOST_SOFT_SCALE + 1, 256):
        values = [draws.soft() for _ in range(draws.between(0, 9))]
        yield scale, values, draws.one_of((0, len(values), 12)), 14


