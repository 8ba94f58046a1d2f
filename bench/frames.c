/* Times softdemap_frame, and for weighted kinds softdemap_frame_weighted, beside plain C, and beside the same C compiled with a copy of the code for each
 * number of bits: one program, one run, medians of many rounds in which the three take turns. Prints the time of a symbol and the ratios Rattle / C for each
 * modulation, then cellular labels and weights beside the same QAM, which take turns on the same samples, then times for frames of 1, 16 and 256 symbols. */
#include <math.h>
#include <stdio.h>
#include <string.h>

#include "../include/softdemap.h"
#include "reference.h"
#include "timing.h"

enum { SYMBOLS = 256, BITS = 12, PROBES = 14, ROUNDS = 1001, ROUND = 4096, RECEIVED = 65536 };

typedef struct {
    const char *name;
    uint8_t kind, bits_i, bits_q;
} modulation;

static const modulation modulations[] = {
    {"BPSK", 2, 1, 0},     {"QPSK", 2, 2, 0},     {"8-PSK", 2, 3, 0},      {"16-PSK", 2, 4, 0},      {"2-PAM", 0, 1, 0},
    {"8-PAM", 0, 3, 0},    {"64-PAM", 0, 6, 0},   {"4-QAM", 1, 1, 1},      {"16-QAM", 1, 2, 2},      {"64-QAM", 1, 3, 3},
    {"256-QAM", 1, 4, 4},  {"4096-QAM", 1, 6, 6}, {"cellular 4", 3, 1, 1}, {"cellular 16", 3, 2, 2}, {"cellular 64", 3, 3, 3},
    {"weighted 64", SOFTDEMAP_WEIGHTED + 1, 3, 3},
};
enum { MODULATIONS = sizeof modulations / sizeof *modulations };

typedef struct {
    uint8_t hard[SYMBOLS * BITS];
    int16_t soft[SYMBOLS * BITS];
    uint8_t probe_index[SYMBOLS * PROBES];
    int64_t probe_cost[SYMBOLS * PROBES];
} outputs;

/* so many symbols that no branch predictor learns their soft values by heart */
static uint16_t gains[RECEIVED], weights[RECEIVED];
static int32_t yi[RECEIVED], yq[RECEIVED];
static outputs ours, theirs;

/* noise about as large as half the distance of two points: the sum of four uniform numbers */
static int32_t noise(int32_t size)
{
    int64_t sum = 0;
    for (int i = 0; i < 4; i++)
        sum += (int32_t)(random32() % 2001) - 1000;
    return (int32_t)(sum * size / 2000);
}

/* random points of the modulation, at gains of a fading path, with noise */
static void receive(modulation m)
{
    for (int n = 0; n < RECEIVED; n++) {
        weights[n] = (uint16_t)(50 + random32() % 101);
        gains[n] = (uint16_t)(m.kind == 2 ? 1 + random32() % 4095 : 200 + random32() % 3000);
        if (m.kind == 2) {
            double angle = (2.0 * (random32() % (1u << m.bits_i)) + 1) * M_PI / (1 << m.bits_i);
            int32_t spread = 16384 >> m.bits_i;
            yi[n] = (int32_t)(16384 * cos(angle)) + noise(spread);
            yq[n] = (int32_t)(16384 * sin(angle)) + noise(spread);
        } else {
            int32_t top_i = (1 << m.bits_i) - 1, top_q = (1 << m.bits_q) - 1;
            yi[n] = gains[n] * (2 * (int32_t)(random32() & top_i) - top_i) + noise(gains[n]);
            yq[n] = gains[n] * (2 * (int32_t)(random32() & top_q) - top_q) + noise(gains[n]);
        }
    }
}

typedef uint64_t frame_call(uint8_t, uint8_t, uint8_t, uint16_t, uint16_t, uint8_t, uint16_t, const uint16_t *, size_t, const int32_t *, size_t,
                            const int32_t *, size_t, uint8_t *, size_t, int16_t *, size_t, uint8_t *, size_t, int64_t *, size_t);
typedef uint64_t weighted_call(uint8_t, uint8_t, uint8_t, uint16_t, uint16_t, uint8_t, uint16_t, const uint16_t *, size_t, const uint16_t *, size_t,
                               const int32_t *, size_t, const int32_t *, size_t, uint8_t *, size_t, int16_t *, size_t, uint8_t *, size_t, int64_t *,
                               size_t);

/* the call for plain kinds and that for weighted ones */
typedef struct {
    frame_call *plain;
    weighted_call *weighted;
} frame_calls;

/* reads the frame of so many symbols from symbol `from` on */
static uint64_t call(frame_calls f, modulation m, size_t from, size_t symbols, outputs *out)
{
    uint16_t payload = (uint16_t)(symbols * (m.bits_i + m.bits_q));
    uint8_t shift = m.kind == 2 ? 19 : 16; /* most soft values below the limit, some held */
    if (m.kind >= SOFTDEMAP_WEIGHTED)
        return f.weighted(m.kind, m.bits_i, m.bits_q, payload, 0, shift, 32767, gains + from, symbols, weights + from, symbols, yi + from, symbols,
                          yq + from, symbols, out->hard, sizeof out->hard, out->soft, sizeof out->soft / 2, out->probe_index,
                          sizeof out->probe_index, out->probe_cost, sizeof out->probe_cost / 8);
    return f.plain(m.kind, m.bits_i, m.bits_q, payload, 100, shift, 32767, gains + from, symbols, yi + from, symbols, yq + from,
                   m.kind == 0 ? 0 : symbols, out->hard, sizeof out->hard, out->soft, sizeof out->soft / 2, out->probe_index,
                   sizeof out->probe_index, out->probe_cost, sizeof out->probe_cost / 8);
}

enum { RATTLE, C, C_CONSTANT, CALLS };
static const frame_calls calls[CALLS] = {
    {softdemap_frame, softdemap_frame_weighted},
    {reference_frame, reference_frame_weighted},
    {reference_frame_constant, reference_frame_weighted_constant},
};

/* nanoseconds of a symbol in a round of frames of so many symbols */
static double time_round(frame_calls f, modulation m, int round, size_t symbols, outputs *out)
{
    double start = now();
    for (size_t n = 0; n < ROUND; n += symbols)
        call(f, m, (size_t)round * ROUND % RECEIVED + n, symbols, out);
    return (now() - start) / ROUND;
}

/* median nanoseconds of a symbol for each call, taking turns */
static void measure(modulation m, size_t symbols, double medians[CALLS])
{
    static double times[CALLS][ROUNDS];
    for (int round = 0; round < ROUNDS; round++)
        for (int who = 0; who < CALLS; who++)
            times[who][round] = time_round(calls[who], m, round, symbols, who == RATTLE ? &ours : &theirs);
    for (int who = 0; who < CALLS; who++)
        medians[who] = median(times[who], ROUNDS);
}

/* the same of the library for two modulations, of which either is the first in every second pass over the samples */
static void measure_two(const modulation m[2], double medians[2])
{
    static double times[2][ROUNDS];
    for (int round = 0; round < ROUNDS; round++) {
        int first = round / (RECEIVED / ROUND) % 2;
        times[first][round] = time_round(calls[RATTLE], m[first], round, SYMBOLS, &ours);
        times[1 - first][round] = time_round(calls[RATTLE], m[1 - first], round, SYMBOLS, &ours);
    }
    for (int who = 0; who < 2; who++)
        medians[who] = median(times[who], ROUNDS);
}

/* the answers of all three to the first frame are the same, behind the lists too */
static int agree(modulation m)
{
    memset(&ours, 0xAA, sizeof ours);
    uint64_t answer = call(calls[RATTLE], m, 0, SYMBOLS, &ours);
    for (int who = C; who < CALLS; who++) {
        memset(&theirs, 0xAA, sizeof theirs);
        if (call(calls[who], m, 0, SYMBOLS, &theirs) != answer || (uint32_t)answer != 0 || memcmp(&ours, &theirs, sizeof ours) != 0)
            return 0;
    }
    return 1;
}

/* all modulations beside C; 0 where the answers differ */
static int print_calls(void)
{
    double logs = 0, constant_logs = 0;
    printf("%-11s %12s %12s %8s %18s %8s\n", "256 symbols", "Rattle ns", "C ns", "ratio", "C, constant bits", "ratio");
    for (size_t i = 0; i < MODULATIONS; i++) {
        modulation m = modulations[i];
        double t[CALLS];
        receive(m);
        if (!agree(m)) {
            printf("%s: the answers differ\n", m.name);
            return 0;
        }
        measure(m, SYMBOLS, t);
        logs += log(t[RATTLE] / t[C]);
        constant_logs += log(t[RATTLE] / t[C_CONSTANT]);
        printf("%-11s %12.2f %12.2f %8.2f %18.2f %8.2f\n", m.name, t[RATTLE], t[C], t[RATTLE] / t[C], t[C_CONSTANT], t[RATTLE] / t[C_CONSTANT]);
    }
    printf("geometric mean of the ratios %.2f, and to C with constant bits %.2f\n\n", exp(logs / MODULATIONS), exp(constant_logs / MODULATIONS));
    return 1;
}

/* cellular labels, and weights, beside the same QAM, both read by the library */
static void print_beside_qam(void)
{
    printf("%-11s %12s %12s %8s\n", "256 symbols", "ns", "QAM ns", "ratio");
    for (size_t i = 0; i < MODULATIONS; i++) {
        modulation m = modulations[i], qam = {"", SOFTDEMAP_QAM, m.bits_i, m.bits_q};
        double t[2];
        if (m.kind != SOFTDEMAP_CELLULAR && m.kind != SOFTDEMAP_WEIGHTED + SOFTDEMAP_QAM)
            continue;
        receive(m);
        measure_two((modulation[]){m, qam}, t);
        printf("%-11s %12.2f %12.2f %8.2f\n", m.name, t[0], t[1], t[0] / t[1]);
    }
    printf("\n");
}

/* all modulations in frames of several lengths */
static void print_lengths(void)
{
    printf("%-11s %22s\n", "", "ns a symbol, frames of");
    printf("%-11s %10s %10s %10s %14s\n", "", "1", "16", "256 symbols", "256, ns a bit");
    for (size_t i = 0; i < MODULATIONS; i++) {
        modulation m = modulations[i];
        double one[CALLS], some[CALLS], many[CALLS];
        receive(m);
        measure(m, 1, one);
        measure(m, 16, some);
        measure(m, SYMBOLS, many);
        printf("%-11s %10.2f %10.2f %10.2f %14.2f\n", m.name, one[RATTLE], some[RATTLE], many[RATTLE], many[RATTLE] / (m.bits_i + m.bits_q));
    }
}

int main(void)
{
    if (!print_calls())
        return 1;
    print_beside_qam();
    print_lengths();
    return 0;
}
