"""Random frames without fault. Samples are drawn about the points of the constellation, whatever the modulation is."""

from constellations import KINDS, MODULATIONS, bits_per_symbol, constellation_of
from draws import Draws
from written import filled, one_weight, weighted

# Directions between the edge of the first two rounded points of 16-PSK and the tangent of 22.5 degrees.
EDGES = ((5906, 2446), (100000, 41418), (590600, 244617))


class FrameDraws(Draws):
    def gain(self, most=4095):
        way = self.between(0, 3)
        if way == 0:
            return self.one_of((0, 1, 2, most - 1, most))
        return self.one_of((2 ** self.between(0, most.bit_length() - 1), self.between(0, 16), self.between(0, most)))

    def long(self, direction, most):
        """A direction times a length, turned by any number of quarters, and mirrored half of the time."""
        u, v = direction
        length = self.between(0, max(1, most // max(abs(u), abs(v), 1)))
        for _ in range(self.between(0, 3)):
            u, v = -v, u
        return (u * length, v * length) if self.once_in(2) else (v * length, u * length)

    def coordinate(self, most):
        """An end of the range, a power of two, a small number, or any."""
        sign = self.one_of((-1, 1))
        way = self.between(0, 3)
        if way == 0:
            return sign * (most - self.between(0, 2))
        if way == 1:
            return sign << self.between(0, most.bit_length() - 1)
        return self.between(-20, 20) if way == 2 else self.between(-most, most)

    def points(self, modulation, gain):
        """The coordinates of two points at a gain, often of two neighbours."""
        constellation = constellation_of(modulation)
        count = len(constellation.points.labels)
        first = self.between(0, count - 1)
        second = (first + 1) % count if self.once_in(2) else self.between(0, count - 1)
        return constellation.sent(first, gain), constellation.sent(second, gain)

    def sample(self, modulation, gain):
        """At a point, in the middle between two or as far from both, near a point, far out, or any; now and then off by one."""
        most = KINDS[modulation[0]].most_sample
        (u, v), (x, y) = self.points(modulation, gain)
        drawn = (
            lambda: (u, v),
            lambda: ((u + x) // 2, (v + y) // 2),
            lambda: self.long((y - v, u - x), most),
            lambda: self.long((u, v), most),
            lambda: (u + self.between(-gain - 1, gain + 1), v + self.between(-gain - 1, gain + 1)),
            lambda: self.long(self.one_of(EDGES), most),
            lambda: (self.coordinate(most), self.coordinate(most)),
        )
        u, v = self.one_of(drawn)()
        if self.once_in(3):
            u, v = u + self.between(-1, 1), v + self.between(-1, 1)
        return max(-most, min(most, u)), max(-most, min(most, v))

    def symbol(self, modulation):
        """A gain and a sample; yQ is 0 where none is sent."""
        kind = KINDS[modulation[0]]
        gain = self.gain(kind.most_gain)
        sample_i, sample_q = self.sample(modulation, gain)
        return gain, sample_i, sample_q if kind.has_quadrature else 0

    def weight(self):
        return self.one_of((1, 4095, 2 ** self.between(0, 11), self.between(1, 4095)))

    def fields(self, modulation, count, padding=0):
        """A frame of so many symbols with any weight, shift and limit."""
        symbols = [self.symbol(modulation) for _ in range(count)]
        weight = self.weight()
        shift = self.one_of((0, 40, self.between(0, 7), self.between(0, 40), self.between(10, 30)))
        limit = self.one_of((1, 32767, 32767, self.between(1, 200), self.between(1, 32767)))
        return filled(modulation, symbols, weight, shift, limit, padding)

    def padding(self, modulation):
        return self.between(0, bits_per_symbol(modulation) - 1)

    def few(self, modulation=None):
        """A frame of few symbols with any padding, of any modulation where none is given."""
        modulation = modulation or self.one_of(MODULATIONS)
        return self.fields(modulation, self.between(1, 3), self.padding(modulation))

    def bit_bytes(self, count):
        return [self.between(0, 1) for _ in range(count)]

    def weights(self, count):
        """The weights of so many symbols: of a plain frame none."""
        return []

    def own(self, fields):
        """A plain frame as such draws have it."""
        return fields


class Weights:
    """Put before draws of frames: each symbol of theirs has a weight of its own."""

    def fields(self, modulation, count, padding=0):
        plain = super().fields(modulation, count, padding)
        return weighted(plain, self.weights(count))

    def weights(self, count):
        return [self.weight() for _ in range(count)]

    def own(self, fields):
        """A plain frame with its weight for each symbol."""
        return fields if fields.weighted else one_weight(fields)
