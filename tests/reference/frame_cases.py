"""Frame calls for the tests of the hosts: (frame, rooms, the answer number it is meant to get, or None)."""

import softlines_accepted as accepted
import softlines_refused as refused
import softlines_weighted as weighted
from constellations import KINDS, MODULATIONS, bits_per_symbol
from draws import fault_sets
from frame_faults import FAULTS, ORDER, WEIGHTED_ORDER, FrameFaults, WeightedFaults, broken
from frames import read_frame
from headers import WEIGHTED
from messages import map_bits
from written import QAM_FRAME, WORKED, fields_of, has_quadrature

# Groups of softlines' lines whose frames have the lengths that their headers call for.
GROUPS = (accepted.worked_cases, accepted.zero_gains, accepted.level_ties, accepted.angle_ties, accepted.tangent_edges, accepted.halves)
GROUPS += (accepted.limits_met, accepted.far_corners, accepted.each_shift, refused.later_symbols, refused.gains, refused.samples)
GROUPS += (refused.link_limits,)
WEIGHTED_GROUPS = (weighted.one_symbol_weighted, weighted.halves, weighted.far_corners, weighted.each_shift, weighted.symbol_weights)
WEIGHTED_GROUPS += (weighted.later_symbols,)


def of_lines(draws, groups=GROUPS):
    """Worked cases, ties on levels and angles, halves, limits, ends of all ranges, every shift, later symbols with faults."""
    for group in groups:
        for line, number in group():
            frame = draws.of_fields(fields_of(line))
            yield frame, draws.rooms(frame), number


def of_weighted_lines(draws):
    """Symbols among which one has another weight, halves by the weight, ends of all ranges, every shift, later symbols with faults."""
    return of_lines(draws, WEIGHTED_GROUPS)


def valid(draws):
    """Every modulation: few symbols many times, and every padding of one and of two symbols."""
    for modulation in MODULATIONS:
        frames = [draws.few_symbols(modulation) for _ in range(140)]
        frames += [draws.frame(modulation, count, padding) for padding in range(bits_per_symbol(modulation)) for count in (1, 2)]
        for frame in frames:
            yield frame, draws.rooms(frame), 0


def full(draws):
    """256 symbols pass, 257 are refused by 6; weight 4096 is refused by 7, and where symbols have weights by 18."""
    for modulation in MODULATIONS:
        frame = draws.frame(modulation, 256, draws.padding(modulation))
        rooms = draws.rooms(frame)
        yield frame, rooms, 0
        yield frame._replace(weight=4096), rooms, 18 if frame.weighted else 7
        for weight in (4095, 4096):
            yield frame._replace(payload=256 * bits_per_symbol(modulation) + 1, weight=weight), rooms, 6


def returned(draws):
    """What is sent without noise, read at the gain it was made with, 1 or more, is the same bits again."""
    for modulation in MODULATIONS:
        for count in [draws.between(1, 40) for _ in range(4)]:
            bits, gain = draws.bit_bytes(count), max(1, draws.gain())
            (yi, yq), _ = map_bits(modulation, gain, bits)
            frame = draws.few_symbols(modulation)
            frame = frame._replace(payload=count, gains=[gain] * len(yi), weights=draws.weights(len(yi)), yi=yi, yq=yq)
            assert read_frame(frame)[0][0] == bits, "the bits read are not the bits sent"
            yield frame, draws.rooms(frame), 0


def numbered_modulations():
    """Every kind number, and for each kind that there is and one more every bit count, plain and with weights; most are refused."""
    some, kinds = (0, 1, 2, 3, 4, 5, 6, 7, 255), [added + kind for added in (0, WEIGHTED) for kind in (*KINDS, max(KINDS) + 1)]
    grid = [(kind, i, q) for kind in kinds for i in some for q in some]
    counts = [each for kind in kinds for count in range(256) for each in ((kind, count, 0), (kind, 2, count))]
    return grid + counts + [(kind, 2, 2) for kind in range(256)]


def kinds_and_bits(draws):
    """One symbol of every modulation that numbers can name."""
    one = draws.of_fields(WORKED._replace(payload=1))
    for kind, bits_i, bits_q in numbered_modulations():
        frame = one._replace(kind=kind, bits_i=bits_i, bits_q=bits_q, yq=one.yq if has_quadrature(kind) else [])
        yield frame, draws.rooms(frame), None if kind % WEIGHTED in KINDS else 4


def in_order(draws):
    """Each rule broken alone, with each later one, and with all later ones, in four ways."""
    frame = draws.of_fields(QAM_FRAME)
    for first, sets in fault_sets(WEIGHTED_ORDER if frame.weighted else ORDER):
        for faults in sets:
            for way in range(4):
                yield (*broken(draws.of_fields(QAM_FRAME), faults, way), first)


def damaged(draws):
    """Every fault and every pair of faults many times."""
    for place, first in enumerate(FAULTS):
        for second in FAULTS[place:]:
            for _ in range(30):
                frame = draws.few_symbols()
                for fault in sorted({first, second} - {"room"}):
                    frame = draws.damaged(frame, fault)
                rooms = draws.rooms(frame)
                yield frame, draws.short_rooms(frame, rooms) if "room" in (first, second) else rooms, None


def all_cases():
    for seed, group in enumerate((of_lines, valid, full, returned, kinds_and_bits, in_order, damaged)):
        yield from group(FrameFaults(100 + seed))
        yield from group(WeightedFaults(120 + seed))
    yield from of_weighted_lines(FrameFaults(140))
