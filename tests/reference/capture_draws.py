"""Random binary32 numbers by their patterns: particular ones, halves, ends of the range, numbers of each answer."""

from captures import MOST_SAMPLE, MOST_SCALE, pattern_of
from draws import Draws

SIGN = 1 << 31
INFINITE, LARGEST_FINITE = 0x7F800000, 0x7F7FFFFF

# Zero, infinity, NaNs of all sorts, the ends of subnormal and normal numbers, 1 and a half.
PARTICULAR = (0, INFINITE, 0x7F800001, 0x7FC00000, 0x7FFFFFFF, 1, 0x007FFFFF, 0x00800000, LARGEST_FINITE, 0x3F800000, 0x3F000000)


def half(whole, scale):
    """whole + 1/2 at the scale."""
    return pattern_of(2 * whole + 1, scale + 1)


class CaptureDraws(Draws):
    def scale(self, most):
        """A scale, now and then out of its range."""
        return self.one_of((most + 1, 128, 255)) if self.once_in(25) else self.between(0, most)

    def sign(self):
        return self.between(0, 1) << 31

    def good(self, scale):
        """A number in range: the patterns up to that of 1048576.5 are those that become samples."""
        last = half(MOST_SAMPLE, scale)
        way = self.between(0, 4)
        if way == 0:
            return self.one_of((0, 1, last, last - self.between(0, 63))) | self.sign()
        if way == 1:
            return half(self.between(0, MOST_SAMPLE - 1), scale) - self.between(0, 1) | self.sign()
        return (self.between(0, last) if way == 2 else last - self.between(0, 24 << 23)) | self.sign()

    def outside(self, scale):
        """A finite number that is refused by 13."""
        first = half(MOST_SAMPLE, scale) + 1
        return self.one_of((first, LARGEST_FINITE, first + self.between(0, 63), self.between(first, LARGEST_FINITE))) | self.sign()

    def not_finite(self, scale):
        """A number that is refused by 12."""
        return self.one_of((INFINITE, INFINITE + 1, 0x7FC00000, self.between(INFINITE, 0x7FFFFFFF))) | self.sign()

    def number(self, scale):
        """Any of these, or any pattern."""
        scale = min(scale, MOST_SCALE)
        way = self.between(0, 9)
        if way < 6:
            return self.good(scale)
        return self.one_of((self.outside(scale), self.not_finite(scale), self.between(0, 2**32 - 1), self.one_of(PARTICULAR) | self.sign()))

    def soft(self):
        ends = self.one_of((0, 1, -1, -32768, 32767))
        powers = self.one_of((2 ** self.between(0, 14), -(2 ** self.between(0, 15))))
        return self.one_of((ends, powers, self.between(-32768, 32767), self.between(-32768, 32767)))
