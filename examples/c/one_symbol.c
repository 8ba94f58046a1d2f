/* One symbol of 16-QAM, received at gain 5 as (3, -20), of which 3 bits are payload. */
#include <stdio.h>

#include "../../include/softdemap.h"

int main(void)
{
    uint16_t gains[] = {5};
    int32_t yi[] = {3}, yq[] = {-20};
    uint8_t hard[3], index[6];
    int16_t soft[3];
    int64_t cost[6];
    struct softdemap_header header = {.kind = SOFTDEMAP_QAM, .bits_i = 2, .bits_q = 2, .payload = 3, .weight = 1, .shift = 2, .limit = 32767};
    struct softdemap_received received = {.gains = gains, .gains_len = 1, .yi = yi, .yi_len = 1, .yq = yq, .yq_len = 1};
    struct softdemap_reading reading = {
        .hard = hard, .hard_len = 3, .soft = soft, .soft_len = 3, .probe_index = index, .probe_index_len = 6, .probe_cost = cost, .probe_cost_len = 6};

    uint64_t r = softdemap_read(&header, &received, &reading);
    printf("refusal %d, %u probes\n", softdemap_refusal_of(r), (unsigned)softdemap_probes_of(r));
    for (int i = 0; i < 3; i++)
        printf("bit %d: %d, soft value %d\n", i, hard[i], soft[i]); /* plus leans to 0, minus to 1 */
    return 0;
}
