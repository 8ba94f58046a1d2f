"""Mapping calls for the tests of the hosts: (modulation, gain, bits, rooms, the answer number it is meant to get, or None)."""

from constellations import KINDS, MODULATIONS, bits_per_symbol, constellation_of
from draws import fault_sets
from frame_cases import numbered_modulations
from frame_draws import FrameDraws
from headers import WEIGHTED, most_bits, setup_refusal
from messages import needed

ORDER = (4, 5, 6, 10, 17, 15)

# What may be damaged in a mapping call.
FAULTS = ("kind", "counts", "length", "gain", "bit", "room")


class MessageDraws(FrameDraws):
    def rooms(self, modulation, count):
        """Rooms long enough, any in quadrature where nothing is sent there; any where the call is refused before they matter."""
        if setup_refusal(modulation, count):
            return [self.between(0, 40) for _ in range(2)]
        in_phase, in_quadrature = needed(modulation, count)
        return [self.enough(in_phase), self.enough(in_quadrature) if in_quadrature else self.one_of((0, 0, self.between(0, 300)))]

    def message(self, modulation, count):
        bits = self.bit_bytes(count)
        return modulation, self.gain(KINDS[modulation[0]].most_gain), bits, self.rooms(modulation, count)

    def damaged(self, call, fault):
        """The call with one thing changed."""
        (kind, bits_i, bits_q), gain, bits, rooms = call
        if fault == "kind":
            kind = self.one_of((max(KINDS), max(KINDS) + 1, WEIGHTED, WEIGHTED + kind, 255))
        elif fault == "counts":
            bits_i, bits_q = self.one_of(((0, 0), (7, 0), (5, 0), (0, 7), (2, 255), (2, 3), (4, 4), (bits_i, bits_q)))
        elif fault == "length":
            full = min(most_bits((kind, bits_i, bits_q)), 4000)
            bits = self.one_of(([], [1] * full, [0] * (full + 1)))
        elif fault == "gain":
            gain = self.one_of((4095, 4096, 65535))
        elif fault == "bit" and bits:
            place = self.between(0, len(bits) - 1)
            bits = [*bits[:place], self.one_of((2, 128, 255)), *bits[place + 1 :]]
        elif fault == "room":
            place = self.between(0, 1)
            rooms = [self.between(0, max(0, room - 1)) if place == at else room for at, room in enumerate(rooms)]
        return (kind, bits_i, bits_q), gain, bits, rooms


def valid(draws):
    """Every modulation with any padding: few bits, single symbols, full frames."""
    for modulation in MODULATIONS:
        size = bits_per_symbol(modulation)
        counts = [1, size, size + 1, 2 * size, 256 * size, 256 * size - draws.padding(modulation)]
        for count in counts + [draws.between(1, 5 * size) for _ in range(40)]:
            yield (*draws.message(modulation, count), 0)
        yield (*draws.message(modulation, 256 * size + 1), 6)


def every_label(draws):
    """Every point of every modulation, by its label."""
    for modulation in MODULATIONS:
        labels = sorted(constellation_of(modulation).points.labels)
        for start in range(0, len(labels), 256):
            bits = [bit for label in labels[start : start + 256] for bit in label]
            yield modulation, draws.one_of((1, 3, 4095)), bits, draws.rooms(modulation, len(bits)), 0


def kinds_and_bits(draws):
    """One bit in every modulation that numbers can name; a kind with what is added for weights is none here."""
    for modulation in numbered_modulations():
        yield modulation, draws.gain(), [1], [1, 1], None if modulation[0] in KINDS else 4


def broken(faults, way):
    """A mapping call that breaks each rule named; `way` is 0 or 1."""
    kind, bits_i, bits_q = ((max(KINDS) + 1, 255)[way] if 4 in faults else 1), ((2, 7)[way] if 5 in faults else 2), 0 if 5 in faults else 3
    bits = [0, 1, 1, 0, 1, 0]
    if 17 in faults:
        bits[(5, 0)[way]] = (2, 255)[way]
    if 6 in faults:
        bits = (bits * 214, [])[way]
    rooms = [2, 2]
    if 15 in faults:
        rooms[way] = 1
    return (kind, bits_i, bits_q), (4096, 65535)[way] if 10 in faults else 9, bits, rooms


def in_order(draws):
    """Each rule broken alone, with each later one, and with all later ones, in two ways."""
    for first, sets in fault_sets(ORDER):
        for faults in sets:
            for way in (0, 1):
                if not (way == 1 and 6 in faults and 17 in faults):  # no bit that could be wrong
                    yield (*broken(faults, way), first)


def damaged(draws):
    """Every fault and every pair of faults many times."""
    for place, first in enumerate(FAULTS):
        for second in FAULTS[place:]:
            for _ in range(60):
                modulation = draws.one_of(MODULATIONS)
                call = draws.message(modulation, draws.between(1, 4 * bits_per_symbol(modulation)))
                for fault in sorted({first, second}):
                    call = draws.damaged(call, fault)
                yield (*call, None)


def all_cases():
    for seed, group in enumerate((valid, every_label, kinds_and_bits, in_order, damaged)):
        yield from group(MessageDraws(200 + seed))
