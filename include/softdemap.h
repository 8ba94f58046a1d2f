/* softdemap: a proved soft demapper for Gray-labelled PAM, QAM and PSK.
 *
 * Link with libsoftdemap.a (rt staticlib softdemap). The calls keep no state, and allocate nothing, so they may be used
 * from several threads, each with its own buffers. A buffer is a pointer and the number of its entries; buffers of one call must not overlap,
 * and one with no entries is not looked at: NULL may be handed for it. A pointer without a number, in the calls for sizes, for one sample or for
 * one soft value, points to one entry, and no two of a call to the same one.
 *
 * Modulations
 *   SOFTDEMAP_PAM       0  bits_i 1 to 6                 bits_q 0       2^bits_i levels on one axis
 *   SOFTDEMAP_QAM       1  bits_i 1 to 6, bits_q 1 to 6                 2^bits_i levels in phase, 2^bits_q in quadrature
 *   SOFTDEMAP_PSK       2  bits_i 1 to 4                 bits_q 0       2^bits_i phases
 *   SOFTDEMAP_CELLULAR  3  bits_i 1 to 3                 bits_q bits_i  QAM with the labels of 3GPP TS 36.211: QPSK, 16QAM and 64QAM
 * A symbol carries bits_i + bits_q bits, called b below. Index k of an axis with m bits has the level 2k - (2^m - 1); phase k of PSK with m
 * bits stands at (2k + 1) * 180 / 2^m degrees. Labels are binary-reflected Gray labels of the index, the most significant bit first; QAM
 * sends the in-phase label, then the quadrature label. Cellular labels of an axis have every bit turned round, so that those of 3 bits are 111, 110,
 * 100, 101, 001, 000, 010, 011 from the level -7 upward, and the axes take turns: bit 2i of a symbol is bit i of the in-phase label, bit 2i + 1 that
 * of the quadrature label. What is said of QAM below holds for cellular too.
 *
 * Weighted kinds
 *   A kind with SOFTDEMAP_WEIGHTED, 80 hexadecimal, added has a weight for each symbol in place of one for all, as where some carriers of a link are noisier
 *   than others. The modulation is that of the kind without it. The header's weight must then be 0.
 *
 * Units
 *   gain g        0 to 4095; a noise-free PAM or QAM coordinate is g times the level
 *   sample        -1048576 to 1048576 in the gain's units
 *   cost          PAM and each QAM axis: (sample - g * level)^2. PSK: -2 g (yi u + yq v), where (u, v) is the point in units of 1/16384
 *   bit byte      0 or 1
 *   weight        1 to 4095, in the header or, for weighted kinds, of each symbol, whose cost it multiplies
 *   soft value    N * weight / 2^(shift + e), rounded to the nearest whole number, halves away from zero, then held within -limit to limit;
 *                 N is the least cost over the points with the bit 1 less that over the points with the bit 0, and e is 14 for PSK, else 0.
 *                 PLUS LEANS TO THE BIT 0, MINUS TO THE BIT 1.
 *
 * Probes
 *   The nearest index k* has the least cost; AMONG EQUALS IT IS THE SMALLEST, so at gain 0 it is 0. c0 (most significant) to c(m-1) are its binary
 *   digits, so that bit i of its Gray label is ci exclusive-or c(i-1). The best index whose label has the other value of bit i is ki:
 *     PAM, each QAM axis, and PSK with i >= 1   the digits c0 to c(i-1) of k* kept and the others 0, plus 2^(m-i-1), less ci
 *     PSK with i = 0                            (1 - c0) * 2^(m-1) + (1 - c1) * (2^(m-1) - 1); with m = 1 the second term is 0
 *   The probes of a symbol, for QAM of its in-phase and then of its quadrature axis, are k*, k0, k1 and so on to k(m-1), each with its cost, for QAM
 *   with that on its axis. N of bit i is the cost of ki less that of k* where k* has the bit 0, else the cost of k* less that of ki. Costs of probes
 *   have no weight.
 *
 * Refusals, as enum softdemap_refusal below numbers them
 *    1  a line of odd length, below 20 or above 6164 characters
 *    2  a line with a character other than 0 to 9 and A to F
 *    3  a line of another length than its header calls for
 *    4  kind above 3
 *    5  bits_i or bits_q out of range: PAM and QAM 1 to 6, PSK 1 to 4, cellular 1 to 3; bits_q 0 for PAM and PSK, bits_i for cellular
 *    6  no payload, or more than 256 symbols
 *    7  weight outside 1 to 4095                                   with the symbol's number, where it is a symbol's own
 *    8  shift above 40
 *    9  limit outside 1 to 32767
 *   10  gain above 4095                                            with the symbol's number (frame and line call)
 *   11  sample outside -1048576 to 1048576                         with the symbol's number
 *   12  a binary32 number that is infinite or not a number         with the sample's number (softdemap_samples_i32)
 *   13  a binary32 number that rounds out of the range of samples  with the sample's number (softdemap_samples_i32)
 *   14  a binary32 scale above 20, for soft values above 14
 *   15  an output buffer shorter than the answer
 *   16  gains, weights, yi or yq not of the length that the frame needs; a capture that ends within a pair
 *   17  a bit byte neither 0 nor 1
 *   18  a header weight other than 0 of a weighted kind
 * The first that applies is given, in the order that stands at each call. A refused call writes nothing. 4 and 5 judge a weighted kind by the kind without
 * what is added, but for softdemap_map, which refuses it by 4.
 *
 * Binary32
 *   In, at a scale F of 0 to 20, a number x becomes the whole number nearest to x * 2^F, halves to the even one: at F = 0, 2.5 becomes 2 and
 *   3.5 becomes 4. The range is that of samples, after rounding: 1048576.5 becomes 1048576, and 1048576.75 is refused by 13.
 *   Every NaN, whatever its sign and payload, and both infinities are refused by 12; a finite number, however large, never is.
 *   -0.0, and every number whose size times 2^F is a half or less, subnormal numbers among them, become 0.
 *   Out, at a scale f of 0 to 14, a soft value v becomes v * 2^(-f), exactly, and 0 becomes +0.0, never -0.0.
 *   Floating-point arithmetic must round to nearest and trap nothing, as when a program starts; the flags for invalid and inexact operations
 *   may be raised. Flags that flush subnormal numbers to zero change nothing.
 *
 * From a capture to soft values for a decoder: softdemap_samples_i32, softdemap_frame, softdemap_softs_f32 (examples/c/capture.c). For PAM and
 * QAM the frame's gain is in units of the samples: the channel's gain, in the units of the capture, times 2^F. It is at most 4095, which
 * bounds F. For PAM the frame call takes no yq. Frames that come as lines of text: softdemap_line (examples/c/lines.c).
 */
#ifndef SOFTDEMAP_H
#define SOFTDEMAP_H

#include <stddef.h>
#include <stdint.h>

#ifdef __cplusplus
extern "C" {
#endif

/* the kinds of modulation */
enum softdemap_kind { SOFTDEMAP_PAM = 0, SOFTDEMAP_QAM = 1, SOFTDEMAP_PSK = 2, SOFTDEMAP_CELLULAR = 3 };

/* what is added to the kind where each symbol has a weight of its own */
#define SOFTDEMAP_WEIGHTED 0x80

/* why a call is refused; 0 is no refusal */
enum softdemap_refusal {
    SOFTDEMAP_REFUSAL_LINE_LENGTH = 1,
    SOFTDEMAP_REFUSAL_LINE_CHARACTER = 2,
    SOFTDEMAP_REFUSAL_LINE_LENGTH_FOR_HEADER = 3,
    SOFTDEMAP_REFUSAL_KIND = 4,
    SOFTDEMAP_REFUSAL_BITS_PER_SYMBOL = 5,
    SOFTDEMAP_REFUSAL_PAYLOAD = 6,
    SOFTDEMAP_REFUSAL_WEIGHT = 7,
    SOFTDEMAP_REFUSAL_SHIFT = 8,
    SOFTDEMAP_REFUSAL_LIMIT = 9,
    SOFTDEMAP_REFUSAL_GAIN = 10,
    SOFTDEMAP_REFUSAL_SAMPLE = 11,
    SOFTDEMAP_REFUSAL_NOT_FINITE = 12,
    SOFTDEMAP_REFUSAL_ROUNDS_OUT_OF_RANGE = 13,
    SOFTDEMAP_REFUSAL_SCALE = 14,
    SOFTDEMAP_REFUSAL_OUTPUT_TOO_SHORT = 15,
    SOFTDEMAP_REFUSAL_INPUT_LENGTH = 16,
    SOFTDEMAP_REFUSAL_BIT_BYTE = 17,
    SOFTDEMAP_REFUSAL_HEADER_WEIGHT = 18
};

/* What every call returns begins with the refusal, in its lowest 8 bits, 0 for none. Above it stands the number of the symbol, or of the sample of a
 * capture, that is refused, and above the lowest 32 bits the number of probes of a frame that is read. These take such a number apart. */
static inline enum softdemap_refusal softdemap_refusal_of(uint64_t returned)
{
    return (enum softdemap_refusal)(returned & 255);
}

static inline uint64_t softdemap_symbol_of(uint64_t returned)
{
    return (returned & 255) == 0 ? 0 : returned >> 8;
}

static inline uint32_t softdemap_probes_of(uint64_t returned)
{
    return (returned & 255) == 0 ? (uint32_t)(returned >> 32) : 0;
}

/* The most symbols of a frame, the characters of the longest line, of 256 symbols of QAM or PSK with a weight each, and of the longest answer, to 256 symbols
 * of QAM with 12 bits each. */
#define SOFTDEMAP_MAX_SYMBOLS 256
#define SOFTDEMAP_MAX_LINE 6164
#define SOFTDEMAP_MAX_ANSWER 12294

/* What the header of a frame calls for, by the numbers of softdemap_frame or of the first 20 digits of a line.
 *
 * Out: symbols     n = ceil(payload / b): the entries of gains and yi, and of weights for weighted kinds, which else are none
 *      quadrature  the entries of yq: n, for PAM 0
 *      probes      n * (b + 1), for QAM n * (b + 2): the entries of probe_index and of probe_cost
 *      line        the characters of the frame written as a line
 *      answer      the characters of the answer to that line
 * The entries of hard and soft are the payload.
 *
 * Order of refusals: 4, 5, 6, 7 or for weighted kinds 18, 8, 9.
 * Returns the refusal, or 0. */
uint32_t softdemap_sizes(uint8_t kind, uint8_t bits_i, uint8_t bits_q, uint16_t payload, uint16_t weight, uint8_t shift, uint16_t limit,
                         uint32_t *symbols, uint32_t *quadrature, uint32_t *probes, uint32_t *line, uint32_t *answer);

/* Reads a frame of n = ceil(payload / b) symbols, of a kind that is not weighted: the call below with no weights. A weighted kind is refused: where the
 * header passes, by 16.
 *
 * In:  gains        n entries, one a symbol
 *      yi           n entries, in-phase samples
 *      yq           n entries, quadrature samples; 0 entries for PAM
 * Out: hard         payload entries or more: the payload's bits as decided, in the order sent
 *      soft         payload entries or more: their soft values
 *      probe_index  n * (b + 1) entries or more, for QAM n * (b + 2): the indices of the probes
 *      probe_cost   as many: their costs
 * Padding bits of the last symbol are not handed out; their probes are. Entries behind the answer keep what they held.
 *
 * Order of refusals: 4, 5, 6, 7 or for weighted kinds 18, 8, 9, 16, 15, then for each symbol 10, 11.
 * Returns refusal + 256 * symbol (the symbol's number is 0 unless the refusal is 10 or 11), or, where the frame is read, the number of
 * probes times 2^32. */
uint64_t softdemap_frame(uint8_t kind, uint8_t bits_i, uint8_t bits_q, uint16_t payload, uint16_t weight, uint8_t shift, uint16_t limit,
                         const uint16_t *gains, size_t gains_len, const int32_t *yi, size_t yi_len, const int32_t *yq, size_t yq_len,
                         uint8_t *hard, size_t hard_len, int16_t *soft, size_t soft_len, uint8_t *probe_index, size_t probe_index_len,
                         int64_t *probe_cost, size_t probe_cost_len);

/* Reads a frame of n = ceil(payload / b) symbols, each with a weight of its own where the kind is weighted.
 *
 * In:  gains        n entries, one a symbol
 *      weights      n entries, one a symbol; 0 entries for kinds that are not weighted
 *      yi           n entries, in-phase samples
 *      yq           n entries, quadrature samples; 0 entries for PAM
 * Out: hard, soft, probe_index, probe_cost as of softdemap_frame
 *
 * Order of refusals: 4, 5, 6, 7 or for weighted kinds 18, 8, 9, 16, 15, then for each symbol 10, for weighted kinds 7, and 11.
 * Returns refusal + 256 * symbol (the symbol's number is 0 unless the refusal is 10, 11 or the 7 of a symbol), or, where the frame is read, the number of
 * probes times 2^32. */
uint64_t softdemap_frame_weighted(uint8_t kind, uint8_t bits_i, uint8_t bits_q, uint16_t payload, uint16_t weight, uint8_t shift, uint16_t limit,
                                  const uint16_t *gains, size_t gains_len, const uint16_t *weights, size_t weights_len, const int32_t *yi,
                                  size_t yi_len, const int32_t *yq, size_t yq_len, uint8_t *hard, size_t hard_len, int16_t *soft, size_t soft_len,
                                  uint8_t *probe_index, size_t probe_index_len, int64_t *probe_cost, size_t probe_cost_len);

/* The calls above with their numbers and buffers by name: sizes, and a frame of any kind. A field that is left out is 0, and a buffer that is left out empty.
 *
 *   struct softdemap_header header = {.kind = SOFTDEMAP_QAM, .bits_i = 2, .bits_q = 2, .payload = 3, .weight = 1, .shift = 2, .limit = 32767};
 *   struct softdemap_sizes sizes;
 *   uint32_t refusal = softdemap_sizes_of(&header, &sizes);
 *   struct softdemap_received received = {.gains = gains, .gains_len = n, .yi = yi, .yi_len = n, .yq = yq, .yq_len = n};
 *   struct softdemap_reading reading = {.hard = hard, .hard_len = 3, .soft = soft, .soft_len = 3, ..};
 *   uint64_t returned = softdemap_read(&header, &received, &reading);
 *
 * With a weight for each symbol:
 *
 *   header.kind = SOFTDEMAP_QAM | SOFTDEMAP_WEIGHTED, header.weight = 0;
 *   received.weights = weights, received.weights_len = n; */
struct softdemap_header {
    uint8_t kind, bits_i, bits_q;
    uint16_t payload, weight;
    uint8_t shift;
    uint16_t limit;
};

struct softdemap_received {
    const uint16_t *gains;
    size_t gains_len;
    const int32_t *yi;
    size_t yi_len;
    const int32_t *yq;
    size_t yq_len;
    const uint16_t *weights; /* for weighted kinds alone */
    size_t weights_len;
};

struct softdemap_reading {
    uint8_t *hard;
    size_t hard_len;
    int16_t *soft;
    size_t soft_len;
    uint8_t *probe_index;
    size_t probe_index_len;
    int64_t *probe_cost;
    size_t probe_cost_len;
};

struct softdemap_sizes {
    uint32_t symbols, quadrature, probes, line, answer;
};

static inline uint32_t softdemap_sizes_of(const struct softdemap_header *h, struct softdemap_sizes *sizes)
{
    return softdemap_sizes(h->kind, h->bits_i, h->bits_q, h->payload, h->weight, h->shift, h->limit, &sizes->symbols, &sizes->quadrature,
                           &sizes->probes, &sizes->line, &sizes->answer);
}

static inline uint64_t softdemap_read(const struct softdemap_header *h, const struct softdemap_received *in, const struct softdemap_reading *out)
{
    return softdemap_frame_weighted(h->kind, h->bits_i, h->bits_q, h->payload, h->weight, h->shift, h->limit, in->gains, in->gains_len, in->weights,
                                    in->weights_len, in->yi, in->yi_len, in->yq, in->yq_len, out->hard, out->hard_len, out->soft, out->soft_len,
                                    out->probe_index, out->probe_index_len, out->probe_cost, out->probe_cost_len);
}

/* Reads a frame written as a line of hexadecimal, and answers in hexadecimal. Digits are 0 to 9 and A to F, the most significant first; samples
 * and soft values are in two's complement. The number of symbols is n = ceil(payload / b).
 *
 * In:  line    20 + 12 n characters for PAM, else 20 + 20 n, and 4 n more for weighted kinds, without a newline. The header, 20 digits: kind (2
 *              digits), bits_i (2), bits_q (2), payload (4), weight (4), shift (2), limit (4). Then for each symbol its gain (4), for weighted kinds its
 *              weight (4), yi (8) and, except for PAM, yq (8)
 * Out: answer  6 + 4 * payload characters or more: 00, the number of probes (4 digits), and each soft value of the payload (4). Neither a
 *              newline nor a NUL is written. Characters behind the answer keep what they held
 *
 * Order of refusals: 1, 2, 4, 5, 6, 7 or for weighted kinds 18, 8, 9, 3, 15, then for each symbol 10, for weighted kinds 7, and 11.
 * Returns refusal + 256 * symbol (the symbol's number is 0 unless the refusal is 10, 11 or the 7 of a symbol), or 0. */
uint32_t softdemap_line(const uint8_t *line, size_t line_len, uint8_t *answer, size_t answer_len);

/* Maps bits_len bits to n = ceil(bits_len / b) symbols without noise; the last symbol is filled up with bits 0. No kind is weighted here.
 *
 * In:  bits  the payload's bit bytes, in the order sent
 * Out: yi    n entries or more: g times the level in phase, for PSK u (which the gain does not scale)
 *      yq    n entries or more: the same in quadrature, for PSK v. PAM leaves yq alone, whatever its length
 *
 * Order of refusals: 4, 5, 6, 10, 17, 15.
 * Returns the refusal, or 0. */
uint32_t softdemap_map(uint8_t kind, uint8_t bits_i, uint8_t bits_q, uint16_t gain, const uint8_t *bits, size_t bits_len, int32_t *yi,
                       size_t yi_len, int32_t *yq, size_t yq_len);

/* Converts a sample of PAM, one number, at the scale F.
 *
 * Out: y  the whole number
 *
 * Order of refusals: 14, 12, 13.
 * Returns the refusal, or 0. */
uint32_t softdemap_sample_i32(uint8_t scale, float x, int32_t *y);

/* Converts a quadrature sample, a pair of numbers, at the scale F.
 *
 * Out: yi, yq  the whole numbers
 *
 * Order of refusals: 14, then 12 and 13 for in_phase, then 12 and 13 for quadrature.
 * Returns the refusal, or 0. */
uint32_t softdemap_quadrature_i32(uint8_t scale, float in_phase, float quadrature, int32_t *yi, int32_t *yq);

/* Converts a capture of n samples at the scale F into the sample buffers of softdemap_frame. For kind 0, PAM, the capture holds n numbers;
 * for every other kind it holds 2 n: in-phase, quadrature, in-phase, and so on. A weighted kind is taken as the kind without what is added. A capture may be
 * of any length, also empty.
 *
 * In:  capture  n or 2 n numbers, in the machine's byte order
 * Out: yi       n entries or more: the whole numbers, for pairs those of the in-phase numbers
 *      yq       n entries or more: the whole numbers of the quadrature numbers. PAM leaves yq alone, whatever its length
 * Entries behind the answer keep what they held.
 *
 * Order of refusals: 14, 4, 16, 15, then for each sample 12 and 13, in-phase first.
 * Returns refusal + 256 * sample (the sample's number is 0 unless the refusal is 12 or 13; 56 bits of it are given), or 0. */
uint64_t softdemap_samples_i32(uint8_t kind, uint8_t scale, const float *capture, size_t capture_len, int32_t *yi, size_t yi_len, int32_t *yq,
                               size_t yq_len);

/* Converts a soft value at the scale f.
 *
 * Out: x  the number
 *
 * Returns the refusal, 14, or 0. */
uint32_t softdemap_soft_f32(uint8_t scale, int16_t soft, float *x);

/* Converts soft_len soft values at the scale f.
 *
 * Out: x  soft_len entries or more: the numbers. Entries behind them keep what they held.
 *
 * Order of refusals: 14, 15.
 * Returns the refusal, or 0. */
uint32_t softdemap_softs_f32(uint8_t scale, const int16_t *soft, size_t soft_len, float *x, size_t x_len);

#ifdef __cplusplus
}
#endif

#endif
