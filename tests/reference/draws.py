"""Random numbers that every Python 3 gives alike for a seed."""

import random


class Draws:
    def __init__(self, seed):
        self.bits = random.Random(seed).getrandbits

    def between(self, least, greatest):
        """A whole number from least to greatest."""
        return least + self.bits(40) % (greatest - least + 1)

    def one_of(self, choices):
        return choices[self.between(0, len(choices) - 1)]

    def once_in(self, times):
        return self.between(1, times) == 1

    def enough(self, need):
        """A length that is enough, exactly or with entries to spare."""
        return need + (0 if self.once_in(2) else self.between(0, 39))


def fault_sets(order):
    """For each rule of an order of refusals: itself, itself with each later one, and itself with all later ones."""
    for place, first in enumerate(order):
        later = order[place + 1 :]
        yield first, [{first}, *({first, second} for second in later), {first, *later}]
