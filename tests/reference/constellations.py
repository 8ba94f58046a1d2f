"""The modulations. Everything that one is stands in the table KINDS, by kind number (REQUIREMENTS, "Points and labels").

A new kind is a new entry of the table and the function that gives its constellation.
"""

from functools import lru_cache, partial
from typing import Callable, NamedTuple

from search import Points, nearest_and_rivals

PAM, QAM, PSK, CELLULAR = 0, 1, 2, 3

# The first quarter of each PSK circle, in units of 1/16384.
PSK_QUARTERS = {
    2: [(11585, 11585)],
    3: [(15137, 6270), (6270, 15137)],
    4: [(16069, 3196), (13623, 9102), (9102, 13623), (3196, 16069)],
}


class Part(NamedTuple):
    """A part of a symbol that has probes of its own; `probed` gives the indices of its probe list for a symbol."""

    points: Points
    probed: Callable


class Constellation(NamedTuple):
    """A modulation's points, its parts in the order of the probe list, and the coordinates of a point that is sent at a gain."""

    points: Points
    parts: tuple
    sent: Callable


class Kind(NamedTuple):
    """What a kind number stands for."""

    bit_counts: list  # the pairs (mI, mQ) that the kind has
    has_quadrature: bool  # whether a sample has yQ
    fraction_bits: int  # e of "Soft values"
    constellation: Callable  # of mI and mQ
    most_gain: int = 4095
    most_sample: int = 1048576


# Labels and levels


def digits(index, m):
    """c0, the most significant, to c(m-1)."""
    return [index >> (m - 1 - i) & 1 for i in range(m)]


def gray_label(index, m):
    """Label bit bi is ci exclusive-or c(i-1), with c(-1) = 0."""
    own = digits(index, m)
    return [digit ^ before for digit, before in zip(own, [0] + own)]


def gray_labels(m):
    return [gray_label(index, m) for index in range(2**m)]


def turned_labels(m):
    """The Gray labels with every bit turned round."""
    return [[1 - bit for bit in label] for label in gray_labels(m)]


def levels(m):
    """The levels of an axis with m bits, in the order of the index."""
    return [2 * index - (2**m - 1) for index in range(2**m)]


def psk_points(m):
    """The PSK points (u, v): the first quarter, then quarter turns of it."""
    if m == 1:
        return [(0, 16384), (0, -16384)]
    points = list(PSK_QUARTERS[m])
    quarter = len(points)
    while len(points) < 2**m:
        u, v = points[-quarter]
        points.append((-v, u))
    return points


# The rival index ki of bit i for the nearest index k (REQUIREMENTS, "Probes")


def axis_rival(m, k, i):
    kept = k >> (m - i) << (m - i)
    return kept + 2 ** (m - i - 1) - digits(k, m)[i]


def circle_rival(m, k, i):
    if i > 0:
        return axis_rival(m, k, i)
    own, half = digits(k, m), 2 ** (m - 1)
    return (1 - own[0]) * half + ((1 - own[1]) * (half - 1) if m > 1 else 0)


# Constellations


def part(labels, costs, rival):
    """A part whose points have these labels."""
    points = Points(labels, costs)
    return Part(points, partial(nearest_and_rivals, points, partial(rival, len(labels[0]))))


def axis(m, coordinate, labels=gray_labels):
    """An axis with m bits; its sample is this entry of a symbol."""
    own = levels(m)

    def costs(symbol):
        gain, sample = symbol[0], symbol[coordinate]
        return [(sample - gain * level) ** 2 for level in own]

    return part(labels(m), costs, axis_rival)


def pam(m, _):
    line, own = axis(m, 1), levels(m)
    return Constellation(line.points, (line,), lambda place, gain: (gain * own[place], 0))


def grid(mi, mq, axis_labels, joined):
    """Two axes, of whose labels `joined` makes one. The whole grid is searched; it runs through the quadrature first."""
    in_phase, quadrature = axis(mi, 1, axis_labels), axis(mq, 2, axis_labels)
    labels = [joined(i, q) for i in in_phase.points.labels for q in quadrature.points.labels]
    places = [(i, q) for i in levels(mi) for q in levels(mq)]

    def costs(symbol):
        below = quadrature.points.costs(symbol)
        return [i + q for i in in_phase.points.costs(symbol) for q in below]

    def sent(place, gain):
        i, q = places[place]
        return gain * i, gain * q

    return Constellation(Points(labels, costs), (in_phase, quadrature), sent)


def qam(mi, mq):
    """The in-phase label, then the quadrature label."""
    return grid(mi, mq, gray_labels, lambda i, q: i + q)


def cellular(mi, mq):
    """Bits of the two axes by turns, in-phase first, each label turned round (REQUIREMENTS, "Cellular labels")."""
    return grid(mi, mq, turned_labels, lambda i, q: [bit for pair in zip(i, q) for bit in pair])


def psk(m, _):
    own = psk_points(m)

    def costs(symbol):
        gain, sample_i, sample_q = symbol
        return [-2 * gain * (sample_i * u + sample_q * v) for u, v in own]

    circle = part(gray_labels(m), costs, circle_rival)
    return Constellation(circle.points, (circle,), lambda place, gain: own[place])


KINDS = {
    PAM: Kind([(m, 0) for m in range(1, 7)], False, 0, pam),
    QAM: Kind([(mi, mq) for mi in range(1, 7) for mq in range(1, 7)], True, 0, qam),
    PSK: Kind([(m, 0) for m in range(1, 5)], True, 14, psk),
    CELLULAR: Kind([(m, m) for m in range(1, 4)], True, 0, cellular),
}
MODULATIONS = [(number, *bits) for number, kind in KINDS.items() for bits in kind.bit_counts]


@lru_cache(maxsize=None)
def constellation_of(modulation):
    """The constellation of (kind, mI, mQ)."""
    return KINDS[modulation[0]].constellation(*modulation[1:])


@lru_cache(maxsize=None)
def probes_per_symbol(modulation):
    """The length of a symbol's probe list."""
    return sum(len(each.probed((0, 0, 0))) for each in constellation_of(modulation).parts)


def bits_per_symbol(modulation):
    return modulation[1] + modulation[2]
