/* Replays binary32 numbers, captures and soft values on the five calls for them. Numbers go in and out as bit patterns. */
#include <stdio.h>
#include <stdlib.h>
#include <string.h>

#include "../../include/softdemap.h"
#include "replay.h"

enum { INFINITE = 0x7F800000, QUIET_NAN = 0x7FC00000, OUTSIDE_AT_ANY_SCALE = 0x4F000000 };

static float number_of(int64_t pattern)
{
    uint32_t bits = (uint32_t)pattern;
    float x;
    memcpy(&x, &bits, sizeof x);
    return x;
}

static uint64_t make_sample(const int64_t *n, const struct lent *in, const struct lent *out)
{
    (void)in;
    return softdemap_sample_i32((uint8_t)n[0], number_of(n[1]), out[0].start);
}

static uint64_t make_quadrature(const int64_t *n, const struct lent *in, const struct lent *out)
{
    (void)in;
    return softdemap_quadrature_i32((uint8_t)n[0], number_of(n[1]), number_of(n[2]), out[0].start, out[1].start);
}

static uint64_t make_samples(const int64_t *n, const struct lent *in, const struct lent *out)
{
    return softdemap_samples_i32((uint8_t)n[0], (uint8_t)n[1], in[0].start, in[0].len, out[0].start, out[0].len, out[1].start, out[1].len);
}

static uint64_t make_soft(const int64_t *n, const struct lent *in, const struct lent *out)
{
    (void)in;
    return softdemap_soft_f32((uint8_t)n[0], (int16_t)n[1], out[0].start);
}

static uint64_t make_softs(const int64_t *n, const struct lent *in, const struct lent *out)
{
    return softdemap_softs_f32((uint8_t)n[0], in[0].start, in[0].len, out[0].start, out[0].len);
}

/* a NaN with any payload, an infinity, or a number too large, of either sign; the sample's number is given */
static uint64_t damage_capture(struct trial *t, size_t input, size_t place)
{
    int finite = (int)below(2);
    uint32_t pattern = finite ? OUTSIDE_AT_ANY_SCALE + below(INFINITE - OUTSIDE_AT_ANY_SCALE) : INFINITE + below(0x800000);
    t->in[input].entries[place] = pattern | below(2) << 31;
    return refused(finite ? 13 : 12, t->numbers[0] % SOFTDEMAP_WEIGHTED == SOFTDEMAP_PAM ? place : place / 2);
}

static const struct call calls[] = {
    {.name = "softdemap_sample_i32",
     .groups = "scales",
     .numbers = 2,
     .out = {{"y", 4}},
     .order = {14, 12, 13},
     .single = 1,
     .make = make_sample},
    {.name = "softdemap_quadrature_i32",
     .groups = "scales",
     .numbers = 3,
     .out = {{"yi", 4}, {"yq", 4}},
     .order = {14, 12, 13},
     .single = 1,
     .make = make_quadrature},
    {.name = "softdemap_samples_i32",
     .groups = "kinds and scales",
     .numbers = 2,
     .in = {{"capture", 4}},
     .out = {{"yi", 4}, {"yq", 4}},
     .order = {14, 4, 16, 15, 12, 13},
     .make = make_samples,
     .damage = damage_capture},
    {.name = "softdemap_soft_f32",
     .groups = "scales",
     .numbers = 2,
     .out = {{"x", 4}},
     .order = {14},
     .single = 1,
     .make = make_soft},
    {.name = "softdemap_softs_f32",
     .groups = "scales",
     .numbers = 1,
     .in = {{"soft", 2}},
     .out = {{"x", 4}},
     .order = {14, 15},
     .make = make_softs},
};

/* A capture of 2^24 + 1 numbers 0, the last of them a NaN: the answer takes more than 32 bits, and nothing is written. */
static void try_long_capture(void)
{
    size_t n = ((size_t)1 << 24) + 1, kept = 0;
    float *x = calloc(n, sizeof *x);
    int32_t *y = calloc(n, sizeof *y);
    if (x == NULL || y == NULL) {
        printf("captures: no memory for 2^24 + 1 numbers\n");
        exit(1);
    }
    x[n - 1] = number_of(QUIET_NAN);
    uint64_t answer = softdemap_samples_i32(0, 0, x, n, y, n, NULL, 0);
    while (kept < n && y[kept] == 0)
        kept++;
    if (answer != refused(12, n - 1) || kept < n) {
        printf("captures: 2^24 + 1 numbers, the last of them a NaN, give %#llx\n", (unsigned long long)answer);
        exit(1);
    }
    free(x);
    free(y);
}

int main(int argc, char **argv)
{
    static const char *const names[] = {"samples", "quadratures", "captures", "soft_values", "soft_buffers"};
    try_long_capture();
    for (size_t i = 0; i < sizeof names / sizeof *names; i++)
        replay(&calls[i], argc > 1 ? argv[1] : ".", names[i]);
    return 0;
}
