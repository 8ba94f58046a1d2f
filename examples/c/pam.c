/* 8-PAM: sends "meter 7" as levels -7, -5, ..., 7 times a gain, adds noise, and reads the samples. */
#include "common.h"

enum {
    BITS = 3, /* 3 bits a symbol: 8 levels */
    SYMBOLS = (PAYLOAD + BITS - 1) / BITS,
    PROBES = SYMBOLS * (BITS + 1),
    GAIN = 100
};

static uint8_t sent[PAYLOAD];
static uint16_t gains[SYMBOLS];
static int32_t samples[SYMBOLS];
static uint8_t hard[PAYLOAD];
static int16_t soft[PAYLOAD];
static uint8_t probe_index[PROBES];
static int64_t probe_cost[PROBES];

/* Soft values are cost differences times weight / 2^shift, held within -limit to limit. */
static const struct softdemap_header header = {
    .kind = SOFTDEMAP_PAM, .bits_i = BITS, .payload = PAYLOAD, .weight = 1, .shift = 10, .limit = 127};
/* PAM has no quadrature samples: their buffer is left out. */
static const struct softdemap_received received = {
    .gains = gains, .gains_len = SYMBOLS, .yi = samples, .yi_len = SYMBOLS};
static const struct softdemap_reading reading = {
    .hard = hard, .hard_len = PAYLOAD, .soft = soft, .soft_len = PAYLOAD,
    .probe_index = probe_index, .probe_index_len = PROBES, .probe_cost = probe_cost, .probe_cost_len = PROBES};

int main(void)
{
    message_bits(sent);
    uint32_t refusal = softdemap_map(SOFTDEMAP_PAM, BITS, 0, GAIN, sent, PAYLOAD, samples, SYMBOLS, NULL, 0);
    if (refusal != 0) {
        printf("not mapped: refusal %" PRIu32 "\n", refusal);
        return 1;
    }
    for (size_t s = 0; s < SYMBOLS; s++) {
        gains[s] = GAIN;
        samples[s] += noise(90);
    }

    uint64_t answer = softdemap_read(&header, &received, &reading);
    if (softdemap_refusal_of(answer) != 0) {
        printf("not read: refusal %d\n", softdemap_refusal_of(answer));
        return 1;
    }
    print_heading("8-PAM", "symbol  sample   hard   soft values");
    for (size_t s = 0; s < SYMBOLS; s++) {
        printf("%6zu %7" PRId32, s, samples[s]);
        print_bits(s, BITS, hard, soft);
    }

    gains[0] = 5000;
    print_end(answer, sent, hard, softdemap_read(&header, &received, &reading));
    return 0;
}
