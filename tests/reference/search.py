"""The search over every point: nearest points, least costs with a bit, differences N, hard bits and probe lists. It knows no modulation.

A symbol is (gain, yI, yQ), with yQ 0 where no quadrature sample is sent.
"""

from collections import Counter
from itertools import compress

# How often the searches met what random samples seldom give: several nearest points, but not all of them.
met = Counter()


def first_least(costs):
    """The place of the least cost, the first among equals (REQUIREMENTS, "Cost of a point")."""
    return costs.index(min(costs))


class Points:
    """Points with labels: those of a modulation, or of a part of it that has probes of its own.

    labels   the label of each point, its bits in the order sent
    costs    gives the costs of all points, in the same order, for a symbol
    nearest  gives the place of the nearest point, from all costs
    """

    def __init__(self, labels, costs, nearest=first_least):
        self.labels, self.costs, self.nearest = [tuple(label) for label in labels], costs, nearest
        ones = list(zip(*self.labels))
        # For each bit: which points have it 0, and which have it 1.
        self.having = [(tuple(1 - bit for bit in column), column) for column in ones]


def least(points, costs, place, bit):
    """The least cost over the points whose bit at this place of the label is so."""
    return min(compress(costs, points.having[place][bit]))


def decided(points, symbol, weight=1):
    """A symbol's hard bits, the label of the nearest point, and N of each bit (REQUIREMENTS, "Soft values"), of costs multiplied by the weight."""
    costs = [weight * cost for cost in points.costs(symbol)]
    nearest = points.nearest(costs)
    if costs.count(costs[nearest]) not in (1, len(costs)):
        met["ties"] += 1
    differences = [least(points, costs, place, 1) - least(points, costs, place, 0) for place in range(len(points.having))]
    return list(points.labels[nearest]), differences


def nearest_and_rivals(points, rival, symbol):
    """k*, k0, k1 and so on (REQUIREMENTS, "Probes").

    The rival index is a formula and no search, since among points of equal cost the requirements choose by it; the search sees that it
    has the other bit, and that no point with that bit costs less.
    """
    costs = points.costs(symbol)
    nearest = points.nearest(costs)
    listed = [nearest]
    for place, bit in enumerate(points.labels[nearest]):
        index = rival(nearest, place)
        assert points.labels[index][place] != bit, "a rival with the same bit"
        assert costs[index] == least(points, costs, place, 1 - bit), "a rival that is not the best"
        listed.append(index)
    return listed
