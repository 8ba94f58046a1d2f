/* Replays headers on softdemap_sizes. */
#include "../../include/softdemap.h"
#include "replay.h"

static uint64_t make(const int64_t *n, const struct lent *in, const struct lent *out)
{
    (void)in;
    return softdemap_sizes((uint8_t)n[0], (uint8_t)n[1], (uint8_t)n[2], (uint16_t)n[3], (uint16_t)n[4], (uint8_t)n[5], (uint16_t)n[6],
                           out[0].start, out[1].start, out[2].start, out[3].start, out[4].start);
}

static const struct call sizes = {
    .name = "softdemap_sizes",
    .groups = "modulations, plain and with weights",
    .numbers = 7,
    .out = {{"symbols", 4}, {"quadrature", 4}, {"probes", 4}, {"line", 4}, {"answer", 4}},
    .order = {4, 5, 6, 7, 18, 8, 9},
    .single = 1,
    .make = make,
};

int main(int argc, char **argv)
{
    replay(&sizes, argc > 1 ? argv[1] : ".", "sizes");
    return 0;
}
