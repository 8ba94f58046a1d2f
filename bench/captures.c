/* Times softdemap_samples_i32 and softdemap_softs_f32 beside plain C: one program, one run, medians of many rounds in which all take turns.
 * The samples are converted in C in two ways: plainly, with nearbyintf and a loop that leaves at the first bad number, and in the way of the
 * library, by a sum and with a look through all numbers that has no branch. Each looks through all numbers before it writes the first.
 * Prints the time of a number and the ratios Rattle / C, for buffers of two lengths. */
#include <math.h>
#include <stdio.h>
#include <string.h>

#include "../include/softdemap.h"
#include "timing.h"

enum { PAM = 0, PSK = 2, CELLULAR = 3, SOFT_VALUES, SCALE = 12, SOFT_SCALE = 4, MOST = 65536, ROUNDS = 301 };

static float capture[MOST], softs[MOST];
static int32_t yi[MOST], yq[MOST];
static int16_t soft[MOST];

/* the checks that come before the numbers */
static uint64_t setup(uint8_t kind, uint8_t scale, size_t numbers, size_t yi_len, size_t yq_len)
{
    size_t each = kind == PAM ? 1 : 2;
    if (scale > 20)
        return 14;
    if (kind > CELLULAR)
        return 4;
    if (numbers % each != 0)
        return 16;
    return yi_len < numbers / each || (kind != PAM && yq_len < numbers / each) ? 15 : 0;
}

/* whether all numbers round into the range; the plain way leaves at the first that does not */
static inline int all_fit_plainly(const float *x, size_t count, float factor)
{
    for (size_t n = 0; n < count; n++)
        if (!(fabsf(x[n] * factor) <= 1048576.5f))
            return 0;
    return 1;
}

static inline int all_fit(const float *x, size_t count, float factor)
{
    int all = 1;
    for (size_t n = 0; n < count; n++)
        all &= fabsf(x[n] * factor) <= 1048576.5f;
    return all;
}

/* the refusal of the first number that does not fit */
static uint64_t first_refusal(const float *x, size_t count, float factor, size_t each)
{
    for (size_t n = 0; n < count; n++)
        if (!(fabsf(x[n] * factor) <= 1048576.5f))
            return (uint64_t)(isfinite(x[n]) ? 13 : 12) + 256 * (uint64_t)(n / each);
    return 0;
}

static inline int32_t by_nearbyint(float x)
{
    return (int32_t)nearbyintf(x);
}

static inline int32_t by_sum(float x)
{
    return (int32_t)(x + 12582912.0f) - 12582912;
}

/* a conversion over a look through the numbers and a way to round */
#define CONVERSION(name, fit, rounded)                                                                                                  \
    static uint64_t name(uint8_t kind, uint8_t scale, const float *x, size_t x_len, int32_t *i, size_t i_len, int32_t *q, size_t q_len)  \
    {                                                                                                                                    \
        uint64_t first = setup(kind, scale, x_len, i_len, q_len);                                                                        \
        if (first != 0)                                                                                                                  \
            return first;                                                                                                                \
        float factor = (float)(1u << scale);                                                                                             \
        if (!fit(x, x_len, factor))                                                                                                      \
            return first_refusal(x, x_len, factor, kind == PAM ? 1 : 2);                                                                 \
        if (kind == PAM)                                                                                                                 \
            for (size_t n = 0; n < x_len; n++)                                                                                           \
                i[n] = rounded(x[n] * factor);                                                                                           \
        else                                                                                                                             \
            for (size_t n = 0; n < x_len / 2; n++) {                                                                                     \
                i[n] = rounded(x[2 * n] * factor);                                                                                       \
                q[n] = rounded(x[2 * n + 1] * factor);                                                                                   \
            }                                                                                                                            \
        return 0;                                                                                                                        \
    }

CONVERSION(samples_plainly, all_fit_plainly, by_nearbyint)
CONVERSION(samples_by_sum, all_fit, by_sum)

static uint32_t softs_in_c(uint8_t scale, const int16_t *v, size_t v_len, float *x, size_t x_len)
{
    if (scale > 14)
        return 14;
    if (x_len < v_len)
        return 15;
    float power = (float)(1u << scale);
    for (size_t i = 0; i < v_len; i++)
        x[i] = (float)v[i] / power;
    return 0;
}

typedef uint64_t samples_call(uint8_t, uint8_t, const float *, size_t, int32_t *, size_t, int32_t *, size_t);
typedef uint32_t softs_call(uint8_t, const int16_t *, size_t, float *, size_t);

static samples_call *const samples_calls[] = {softdemap_samples_i32, samples_plainly, samples_by_sum};
static softs_call *const softs_calls[] = {softdemap_softs_f32, softs_in_c};
enum { WAYS = 3 };

/* one call of a way to convert, samples of a kind or soft values; 0 where it converts */
static uint64_t convert(int kind, int way, size_t numbers)
{
    if (kind == SOFT_VALUES)
        return softs_calls[way](SOFT_SCALE, soft, numbers, softs, MOST);
    return samples_calls[way]((uint8_t)kind, SCALE, capture, numbers, yi, MOST, yq, MOST);
}

/* a way, with the outputs set to a pattern before it */
static uint64_t convert_afresh(int kind, int way)
{
    memset(yi, 0xAA, sizeof yi);
    memset(yq, 0xAA, sizeof yq);
    memset(softs, 0xAA, sizeof softs);
    return convert(kind, way, MOST);
}

/* a way gives what the library gives */
static int agrees(int kind, int way)
{
    static int32_t ours_i[MOST], ours_q[MOST];
    static float ours[MOST];
    if (convert_afresh(kind, 0) != 0)
        return 0;
    memcpy(ours_i, yi, sizeof yi);
    memcpy(ours_q, yq, sizeof yq);
    memcpy(ours, softs, sizeof softs);
    return convert_afresh(kind, way) == 0 && memcmp(ours_i, yi, sizeof yi) == 0 && memcmp(ours_q, yq, sizeof yq) == 0
           && memcmp(ours, softs, sizeof softs) == 0;
}

/* median nanoseconds of a number for each way, taking turns */
static void measure(int kind, int ways, size_t numbers, double *medians)
{
    static double times[WAYS][ROUNDS];
    int repeat = (int)(MOST / numbers);
    for (int round = 0; round < ROUNDS; round++) {
        for (int way = 0; way < ways; way++) {
            double start = now();
            for (int i = 0; i < repeat; i++)
                convert(kind, way, numbers);
            times[way][round] = (now() - start) / ((double)repeat * (double)numbers);
        }
    }
    for (int way = 0; way < ways; way++)
        medians[way] = median(times[way], ROUNDS);
}

int main(void)
{
    static const struct {
        const char *name;
        int kind, ways;
    } rows[] = {{"PAM samples", PAM, 3}, {"pairs", PSK, 3}, {"soft values", SOFT_VALUES, 2}};
    for (size_t n = 0; n < MOST; n++) {
        capture[n] = ((float)random32() / 4294967296.0f - 0.5f) * 500.0f;
        soft[n] = (int16_t)random32();
    }
    printf("%-12s %8s %12s %14s %8s %14s %8s\n", "ns a number", "numbers", "Rattle", "C, plainly", "ratio", "C, same way", "ratio");
    for (size_t r = 0; r < sizeof rows / sizeof *rows; r++) {
        for (int way = 1; way < rows[r].ways; way++) {
            if (!agrees(rows[r].kind, way)) {
                printf("%s: the two differ\n", rows[r].name);
                return 1;
            }
        }
        for (size_t numbers = 512; numbers <= MOST; numbers *= 128) {
            double t[WAYS];
            measure(rows[r].kind, rows[r].ways, numbers, t);
            if (rows[r].ways == 3)
                printf("%-12s %8zu %12.3f %14.3f %8.2f %14.3f %8.2f\n", rows[r].name, numbers, t[0], t[1], t[0] / t[1], t[2], t[0] / t[2]);
            else
                printf("%-12s %8zu %12.3f %14s %8s %14.3f %8.2f\n", rows[r].name, numbers, t[0], "", "", t[1], t[0] / t[1]);
        }
    }
    return 0;
}
