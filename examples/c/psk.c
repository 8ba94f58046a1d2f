/* 8-PSK: sends "meter 7" as 8 phases, adds noise, and reads the samples. */
#include "common.h"

enum {
    BITS = 3, /* 3 bits a symbol: 8 phases */
    SYMBOLS = (PAYLOAD + BITS - 1) / BITS,
    PROBES = SYMBOLS * (BITS + 1),
    GAIN = 64
};

static uint8_t sent[PAYLOAD];
static uint16_t gains[SYMBOLS];
static int32_t yi[SYMBOLS], yq[SYMBOLS];
static uint8_t hard[PAYLOAD];
static int16_t soft[PAYLOAD];
static uint8_t probe_index[PROBES];
static int64_t probe_cost[PROBES];

/* Soft values are cost differences times weight / 2^(shift + 14), held within -limit to limit. */
static const struct softdemap_header header = {
    .kind = SOFTDEMAP_PSK, .bits_i = BITS, .payload = PAYLOAD, .weight = 1, .shift = 14, .limit = 127};
static const struct softdemap_received received = {
    .gains = gains, .gains_len = SYMBOLS, .yi = yi, .yi_len = SYMBOLS, .yq = yq, .yq_len = SYMBOLS};
static const struct softdemap_reading reading = {
    .hard = hard, .hard_len = PAYLOAD, .soft = soft, .soft_len = PAYLOAD,
    .probe_index = probe_index, .probe_index_len = PROBES, .probe_cost = probe_cost, .probe_cost_len = PROBES};

/* Mapping gives points on a circle of radius 16384, whatever the gain. Reading decides by a sample's direction; the gain and the sample's
 * length only scale the soft values. */
int main(void)
{
    message_bits(sent);
    uint32_t refusal = softdemap_map(SOFTDEMAP_PSK, BITS, 0, GAIN, sent, PAYLOAD, yi, SYMBOLS, yq, SYMBOLS);
    if (refusal != 0) {
        printf("not mapped: refusal %" PRIu32 "\n", refusal);
        return 1;
    }
    for (size_t s = 0; s < SYMBOLS; s++) {
        gains[s] = GAIN;
        yi[s] += noise(4000);
        yq[s] += noise(4000);
    }

    uint64_t answer = softdemap_read(&header, &received, &reading);
    if (softdemap_refusal_of(answer) != 0) {
        printf("not read: refusal %d\n", softdemap_refusal_of(answer));
        return 1;
    }
    print_heading("8-PSK", "symbol      yi      yq   hard   soft values");
    for (size_t s = 0; s < SYMBOLS; s++) {
        printf("%6zu %7" PRId32 " %7" PRId32, s, yi[s], yq[s]);
        print_bits(s, BITS, hard, soft);
    }

    gains[0] = 5000;
    print_end(answer, sent, hard, softdemap_read(&header, &received, &reading));
    return 0;
}
