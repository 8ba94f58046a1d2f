/* For each part of a symbol, an axis or the phase of PSK, the cost of every point, the first least, and for each bit the least over all points
 * with the bit 1 and over all with the bit 0. Names in quotes are sections of docs/REQUIREMENTS.md. */
#include "search.h"

#include <stdio.h>
#include <stdlib.h>

enum { PSK = 2, CELLULAR = 3, MOST_BITS = 6, MOST_POINTS = 64 };

/* what has a label of its own, with every bit turned round or not; its bits are sent so far apart */
struct part {
    int psk, bits, turned, apart;
};

/* costs of all points, the first least, and least[i][x] over the points whose bit i is x */
struct found {
    int64_t cost[MOST_POINTS], least[MOST_BITS][2];
    int nearest;
};

/* "Points and labels": digit ci of index k, and label bit bi */
static int digit(int k, int m, int i)
{
    return i < 0 ? 0 : k >> (m - 1 - i) & 1;
}

static int label_bit(struct part part, int k, int i)
{
    return digit(k, part.bits, i) ^ digit(k, part.bits, i - 1) ^ part.turned;
}

/* "Cost of a point" for a phase: the first quarter from the tables, then a quarter turn for each 2^(m-2) */
static int64_t phase_cost(int k, int m, int64_t g, int64_t yi, int64_t yq)
{
    static const int quarters[5][4][2] = {
        {{0}}, {{0}}, {{11585, 11585}}, {{15137, 6270}, {6270, 15137}}, {{16069, 3196}, {13623, 9102}, {9102, 13623}, {3196, 16069}}};
    if (m == 1)
        return -2 * g * yq * (k == 0 ? 16384 : -16384);
    int64_t u = quarters[m][k % (1 << (m - 2))][0], v = quarters[m][k % (1 << (m - 2))][1];
    for (int turns = k / (1 << (m - 2)); turns > 0; turns--) {
        int64_t before = u;
        u = -v;
        v = before;
    }
    return -2 * g * (yi * u + yq * v);
}

static int64_t axis_cost(int k, int m, int64_t g, int64_t y)
{
    int64_t distance = y - g * (2 * k - ((1 << m) - 1));
    return distance * distance;
}

/* an axis has only the sample y */
static struct found search(struct part part, int64_t g, int64_t y, int64_t yq)
{
    struct found f;
    f.nearest = 0;
    for (int i = 0; i < part.bits; i++)
        f.least[i][0] = f.least[i][1] = INT64_MAX;
    for (int k = 0; k < 1 << part.bits; k++) {
        f.cost[k] = part.psk ? phase_cost(k, part.bits, g, y, yq) : axis_cost(k, part.bits, g, y);
        if (f.cost[k] < f.cost[f.nearest])
            f.nearest = k;
        for (int i = 0; i < part.bits; i++) {
            int64_t *least = &f.least[i][label_bit(part, k, i)];
            if (f.cost[k] < *least)
                *least = f.cost[k];
        }
    }
    return f;
}

/* "Probes": the rival index of bit i, which must be a point with the other bit and cost no more than any of them */
static int rival(struct part part, const struct found *f, int i)
{
    int m = part.bits, k = f->nearest, half = 1 << (m - 1), other = 1 - label_bit(part, k, i), found;
    if (part.psk && i == 0)
        found = (1 - digit(k, m, 0)) * half + (m == 1 ? 0 : (1 - digit(k, m, 1)) * (half - 1));
    else
        found = k / (1 << (m - i)) * (1 << (m - i)) + (1 << (m - i - 1)) - digit(k, m, i);
    if (label_bit(part, found, i) != other || f->cost[found] != f->least[i][other]) {
        printf("search: %d is not the best index with the other bit %d than %d\n", found, i, k);
        exit(1);
    }
    return found;
}

/* "Soft values": n * weight / 2^places, halves away from zero, held within the limit; |n| * weight is below 2^62 */
static int16_t soft_value(int64_t n, int weight, int places, int64_t limit)
{
    int64_t size = (n < 0 ? -n : n) * weight, unit = (int64_t)1 << places, left = size % unit;
    int64_t rounded = size / unit + (left >= unit - left);
    if (rounded > limit)
        rounded = limit;
    return (int16_t)(n < 0 ? -rounded : rounded);
}

/* reads one part of symbol s, whose first bit is the place-th of the frame, and gives the number of probes up to its last */
static size_t read_part(const struct searched_frame *c, struct part part, size_t s, int32_t y, size_t place, size_t probe)
{
    struct found f = search(part, c->gains[s], y, part.psk ? c->yq[s] : 0);
    for (int i = -1; i < part.bits; i++, probe++) {
        int k = i < 0 ? f.nearest : rival(part, &f, i);
        c->probe_index[probe] = (uint8_t)k;
        c->probe_cost[probe] = f.cost[k];
    }
    for (int i = 0; i < part.bits && place < c->payload; i++, place += (size_t)part.apart) {
        c->hard[place] = (uint8_t)label_bit(part, f.nearest, i);
        c->soft[place] = soft_value(f.least[i][1] - f.least[i][0], c->weight, c->shift + (part.psk ? 14 : 0), c->limit);
    }
    return probe;
}

size_t search_frame(const struct searched_frame *c)
{
    int cellular = c->kind == CELLULAR, apart = cellular ? 2 : 1;
    struct part first = {c->kind == PSK, c->bits_i, cellular, apart}, second = {0, c->bits_q, cellular, apart};
    size_t bits = (size_t)c->bits_i + c->bits_q, probe = 0;
    for (size_t s = 0; s * bits < c->payload; s++) {
        probe = read_part(c, first, s, c->yi[s], s * bits, probe);
        if (second.bits > 0)
            probe = read_part(c, second, s, c->yq[s], s * bits + (cellular ? 1 : c->bits_i), probe);
    }
    return probe;
}
