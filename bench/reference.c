/* The algorithm in plain C: axes by one division each, PSK by sixteenths of the circle, one pass over the symbols that checks, one that reads.
 * Compiled with CONSTANT_BITS it is reference_frame_constant and reference_frame_weighted_constant: each number of bits has a copy of the code for an axis and
 * for a phase. */
#include "reference.h"

#include <string.h>

#ifdef CONSTANT_BITS
#define FRAME reference_frame_constant
#define WEIGHTED_FRAME reference_frame_weighted_constant
#define READER(part) __attribute__((always_inline)) inline void part##_of
#else
#define FRAME reference_frame
#define WEIGHTED_FRAME reference_frame_weighted
#define READER(part) void read_##part
#endif

typedef struct {
    uint64_t weight;
    unsigned shift;
    uint64_t limit;
} scale;

typedef struct {
    uint8_t *hard;
    int16_t *soft;
    uint8_t *probe_index;
    int64_t *probe_cost;
} buffers;

/* of the kind without what is added for weights */
typedef struct {
    uint8_t kind, bits_i, bits_q;
} modulation;

/* the weight of symbol n is weights[n * step]: of a plain kind, whose step is 0, always that of the header */
typedef struct {
    const uint16_t *gains, *weights;
    size_t step;
    const int32_t *yi, *yq;
} input;

static const int32_t psk_coordinates[60] = {
    0, 16384, 0, -16384,
    11585, 11585, -11585, 11585, -11585, -11585, 11585, -11585,
    15137, 6270, 6270, 15137, -6270, 15137, -15137, 6270,
    -15137, -6270, -6270, -15137, 6270, -15137, 15137, -6270,
    16069, 3196, 13623, 9102, 9102, 13623, 3196, 16069,
    -3196, 16069, -9102, 13623, -13623, 9102, -16069, 3196,
    -16069, -3196, -13623, -9102, -9102, -13623, -3196, -16069,
    3196, -16069, 9102, -13623, 13623, -9102, 16069, -3196,
};

static unsigned label_bit(unsigned bits, unsigned k, unsigned i)
{
    unsigned digits = k >> (bits - 1 - i);
    return (digits ^ (digits >> 1)) & 1;
}

static unsigned axis_counter(unsigned bits, unsigned k, unsigned i)
{
    unsigned place = bits - 1 - i;
    unsigned digits = k >> place;
    unsigned digit = digits & 1;
    return ((digits + 1 - digit) << place) - digit;
}

static unsigned phase_counter(unsigned bits, unsigned k, unsigned i)
{
    if (i != 0)
        return axis_counter(bits, k, i);
    unsigned half = (1u << bits) / 2;
    unsigned digit0 = k >> (bits - 1);
    unsigned digit1 = (2 * k >> (bits - 1)) & 1;
    return (1 - digit0) * half + (1 - digit1) * (half - 1);
}

static int64_t axis_cost(unsigned bits, int64_t gain, int64_t sample, unsigned k)
{
    int64_t error = sample - gain * (2 * (int64_t)k - ((1 << bits) - 1));
    return error * error;
}

static int64_t phase_cost(unsigned bits, int64_t a, int64_t b, unsigned k)
{
    const int32_t *point = psk_coordinates + 2 * ((1u << bits) - 2 + k);
    return a * point[0] + b * point[1];
}

static unsigned nearest_level(unsigned bits, uint32_t gain, int32_t sample)
{
    if (gain == 0)
        return 0;
    int32_t height = sample + (int32_t)(gain << bits);
    if (height < 1)
        return 0;
    uint32_t k = (uint32_t)(height - 1) / (2 * gain);
    uint32_t points = 1u << bits;
    return k < points ? k : points - 1;
}

static unsigned nearest_phase(unsigned bits, uint32_t gain, int64_t yi, int64_t yq)
{
    if (gain == 0)
        return 0;
    unsigned below = yq < 0;
    unsigned left = yi < (int64_t)below;
    unsigned odd = left ^ below;
    int64_t across = yi < 0 ? -yi : yi;
    int64_t up = yq < 0 ? -yq : yq;
    int64_t x = odd ? up : across;
    int64_t y = odd ? across : up;
    unsigned edges = (2446 * x < 5906 * y) + (x < y) + (5906 * x < 2446 * y);
    return (8 * below + 4 * odd + edges) >> (4 - bits);
}

static int16_t soft_value(uint64_t size, unsigned bit, scale s)
{
    uint64_t rounded = (size * s.weight + (1ull << s.shift) / 2) >> s.shift;
    uint64_t held = rounded < s.limit ? rounded : s.limit;
    return bit ? -(int16_t)held : (int16_t)held;
}

/* An axis whose bits are written so far apart; with `turned` 1 each bit of its labels is turned round. A macro, so that both are constants in either
 * compilation. */
#define AXIS(part, turned, apart)                                                                                       \
    static READER(part)(unsigned bits, uint16_t gain, int32_t sample, scale s, size_t at, size_t probe_at, buffers out) \
    {                                                                                                                   \
        unsigned nearest = nearest_level(bits, gain, sample);                                                           \
        int64_t least = axis_cost(bits, gain, sample, nearest);                                                         \
        for (unsigned i = 0; i < bits; i++) {                                                                           \
            unsigned counter = axis_counter(bits, nearest, i);                                                          \
            int64_t cost = axis_cost(bits, gain, sample, counter);                                                      \
            unsigned bit = label_bit(bits, nearest, i) ^ (turned);                                                      \
            out.hard[at + i * (apart)] = (uint8_t)bit;                                                                  \
            out.soft[at + i * (apart)] = soft_value((uint64_t)(cost - least), bit, s);                                  \
            out.probe_index[probe_at + 1 + i] = (uint8_t)counter;                                                       \
            out.probe_cost[probe_at + 1 + i] = cost;                                                                    \
        }                                                                                                               \
        out.probe_index[probe_at] = (uint8_t)nearest;                                                                   \
        out.probe_cost[probe_at] = least;                                                                               \
    }

AXIS(axis, 0, 1)
AXIS(cellular_axis, 1, 2)

static READER(phase)(unsigned bits, uint16_t gain, int32_t yi, int32_t yq, scale s, size_t at, size_t probe_at, buffers out)
{
    int64_t a = -2 * (int64_t)gain * yi;
    int64_t b = -2 * (int64_t)gain * yq;
    unsigned nearest = nearest_phase(bits, gain, yi, yq);
    int64_t least = phase_cost(bits, a, b, nearest);
    for (unsigned i = 0; i < bits; i++) {
        unsigned counter = phase_counter(bits, nearest, i);
        int64_t cost = phase_cost(bits, a, b, counter);
        unsigned bit = label_bit(bits, nearest, i);
        out.hard[at + i] = (uint8_t)bit;
        out.soft[at + i] = soft_value((uint64_t)(cost - least), bit, s);
        out.probe_index[probe_at + 1 + i] = (uint8_t)counter;
        out.probe_cost[probe_at + 1 + i] = cost;
    }
    out.probe_index[probe_at] = (uint8_t)nearest;
    out.probe_cost[probe_at] = least;
}

#ifdef CONSTANT_BITS
static void read_axis(unsigned bits, uint16_t gain, int32_t sample, scale s, size_t at, size_t probe_at, buffers out)
{
    switch (bits) {
    case 1: axis_of(1, gain, sample, s, at, probe_at, out); break;
    case 2: axis_of(2, gain, sample, s, at, probe_at, out); break;
    case 3: axis_of(3, gain, sample, s, at, probe_at, out); break;
    case 4: axis_of(4, gain, sample, s, at, probe_at, out); break;
    case 5: axis_of(5, gain, sample, s, at, probe_at, out); break;
    default: axis_of(6, gain, sample, s, at, probe_at, out);
    }
}

static void read_cellular_axis(unsigned bits, uint16_t gain, int32_t sample, scale s, size_t at, size_t probe_at, buffers out)
{
    switch (bits) {
    case 1: cellular_axis_of(1, gain, sample, s, at, probe_at, out); break;
    case 2: cellular_axis_of(2, gain, sample, s, at, probe_at, out); break;
    default: cellular_axis_of(3, gain, sample, s, at, probe_at, out);
    }
}

static void read_phase(unsigned bits, uint16_t gain, int32_t yi, int32_t yq, scale s, size_t at, size_t probe_at, buffers out)
{
    switch (bits) {
    case 1: phase_of(1, gain, yi, yq, s, at, probe_at, out); break;
    case 2: phase_of(2, gain, yi, yq, s, at, probe_at, out); break;
    case 3: phase_of(3, gain, yi, yq, s, at, probe_at, out); break;
    default: phase_of(4, gain, yi, yq, s, at, probe_at, out);
    }
}
#endif

/* the scale of symbol n, with its weight */
static inline scale scale_of(scale s, input in, size_t n)
{
    s.weight = in.weights[n * in.step];
    return s;
}

/* all bits of symbols n to end - 1, the first to the position at; returns the position behind their probes */
static size_t read_symbols(modulation m, input in, scale s, size_t n, size_t end, size_t at, size_t probe_at, buffers out)
{
    size_t bits = m.bits_i + m.bits_q;
    switch (m.kind) {
    case 0:
        for (; n < end; n++, at += bits, probe_at += bits + 1)
            read_axis(m.bits_i, in.gains[n], in.yi[n], scale_of(s, in, n), at, probe_at, out);
        break;
    case 1:
        for (; n < end; n++, at += bits, probe_at += bits + 2) {
            read_axis(m.bits_i, in.gains[n], in.yi[n], scale_of(s, in, n), at, probe_at, out);
            read_axis(m.bits_q, in.gains[n], in.yq[n], scale_of(s, in, n), at + m.bits_i, probe_at + m.bits_i + 1, out);
        }
        break;
    case 2:
        for (; n < end; n++, at += bits, probe_at += bits + 1)
            read_phase(m.bits_i, in.gains[n], in.yi[n], in.yq[n], scale_of(s, in, n), at, probe_at, out);
        break;
    default:
        for (; n < end; n++, at += bits, probe_at += bits + 2) {
            read_cellular_axis(m.bits_i, in.gains[n], in.yi[n], scale_of(s, in, n), at, probe_at, out);
            read_cellular_axis(m.bits_q, in.gains[n], in.yq[n], scale_of(s, in, n), at + 1, probe_at + m.bits_i + 1, out);
        }
    }
    return probe_at;
}

static int in_range(int32_t y)
{
    return -1048576 <= y && y <= 1048576;
}

static int weight_in_range(uint16_t weight)
{
    return 1 <= weight && weight <= 4095;
}

/* both frame calls */
static __attribute__((always_inline)) inline uint64_t
read_frame(uint8_t kind_number, uint8_t bits_i, uint8_t bits_q, uint16_t payload, uint16_t weight, uint8_t shift, uint16_t limit, const uint16_t *gains,
           size_t gains_len, const uint16_t *weights, size_t weights_len, const int32_t *yi, size_t yi_len, const int32_t *yq, size_t yq_len, uint8_t *hard,
           size_t hard_len, int16_t *soft, size_t soft_len, uint8_t *probe_index, size_t probe_index_len, int64_t *probe_cost, size_t probe_cost_len)
{
    uint8_t kind = kind_number & 0x7F;
    int weighted = kind_number >= 0x80;
    if (kind > 3)
        return 4;
    unsigned most = kind == 2 ? 4 : kind == 3 ? 3 : 6;
    if (bits_i < 1 || bits_i > most || (kind == 1 ? bits_q < 1 || bits_q > 6 : bits_q != (kind == 3 ? bits_i : 0)))
        return 5;
    size_t bits = (size_t)bits_i + bits_q;
    size_t symbols = (payload + bits - 1) / bits;
    if (payload == 0 || symbols > 256)
        return 6;
    if (weighted ? weight != 0 : !weight_in_range(weight))
        return weighted ? 18 : 7;
    if (shift > 40)
        return 8;
    if (limit < 1 || limit > 32767)
        return 9;
    if (gains_len != symbols || weights_len != (weighted ? symbols : 0) || yi_len != symbols || yq_len != (kind == 0 ? 0 : symbols))
        return 16;
    size_t probes = symbols * (bits + (kind == 1 || kind == 3 ? 2 : 1));
    if (hard_len < payload || soft_len < payload || probe_index_len < probes || probe_cost_len < probes)
        return 15;
    const int32_t *second = kind == 0 ? yi : yq;
    uint32_t outside = 0;
    for (size_t n = 0; n < symbols; n++)
        outside += (gains[n] > 4095) + !in_range(yi[n]) + !in_range(second[n]);
    for (size_t n = 0; n < weights_len; n++)
        outside += !weight_in_range(weights[n]);
    for (size_t n = 0; outside != 0; n++) {
        if (gains[n] > 4095)
            return 10 + 256 * n;
        if (weighted && !weight_in_range(weights[n]))
            return 7 + 256 * n;
        if (!in_range(yi[n]) || !in_range(second[n]))
            return 11 + 256 * n;
    }

    modulation m = {kind, bits_i, bits_q};
    input in = {gains, weighted ? weights : &weight, (size_t)weighted, yi, yq};
    scale s = {weight, shift + (kind == 2 ? 14u : 0u), limit};
    buffers out = {hard, soft, probe_index, probe_cost};
    size_t full = payload / bits;
    size_t probe_at = read_symbols(m, in, s, 0, full, 0, 0, out);
    if (full < symbols) { /* the last symbol has padding: it is read into spare entries */
        uint8_t label[12];
        int16_t values[12];
        buffers spare = {label, values, probe_index, probe_cost};
        size_t at = full * bits;
        probe_at = read_symbols(m, in, s, full, symbols, 0, probe_at, spare);
        memcpy(hard + at, label, payload - at);
        memcpy(soft + at, values, (payload - at) * sizeof *soft);
    }
    return (uint64_t)probe_at << 32;
}

uint64_t FRAME(uint8_t kind, uint8_t bits_i, uint8_t bits_q, uint16_t payload, uint16_t weight, uint8_t shift, uint16_t limit, const uint16_t *gains,
               size_t gains_len, const int32_t *yi, size_t yi_len, const int32_t *yq, size_t yq_len, uint8_t *hard, size_t hard_len, int16_t *soft,
               size_t soft_len, uint8_t *probe_index, size_t probe_index_len, int64_t *probe_cost, size_t probe_cost_len)
{
    return read_frame(kind, bits_i, bits_q, payload, weight, shift, limit, gains, gains_len, NULL, 0, yi, yi_len, yq, yq_len, hard, hard_len, soft, soft_len,
                      probe_index, probe_index_len, probe_cost, probe_cost_len);
}

uint64_t WEIGHTED_FRAME(uint8_t kind, uint8_t bits_i, uint8_t bits_q, uint16_t payload, uint16_t weight, uint8_t shift, uint16_t limit,
                        const uint16_t *gains, size_t gains_len, const uint16_t *weights, size_t weights_len, const int32_t *yi, size_t yi_len,
                        const int32_t *yq, size_t yq_len, uint8_t *hard, size_t hard_len, int16_t *soft, size_t soft_len, uint8_t *probe_index,
                        size_t probe_index_len, int64_t *probe_cost, size_t probe_cost_len)
{
    return read_frame(kind, bits_i, bits_q, payload, weight, shift, limit, gains, gains_len, weights, weights_len, yi, yi_len, yq, yq_len, hard, hard_len,
                      soft, soft_len, probe_index, probe_index_len, probe_cost, probe_cost_len);
}
