/* A frame read by a search over every point, in integers. It shares no code with the library, and takes only frames without a fault. */
#ifndef SOFTDEMAP_COMPARE_SEARCH_H
#define SOFTDEMAP_COMPARE_SEARCH_H

#include <stddef.h>
#include <stdint.h>

/* the arguments of softdemap_frame; inputs have as many entries as the payload needs, outputs as many as the answer */
struct searched_frame {
    uint8_t kind, bits_i, bits_q;
    uint16_t payload, weight;
    uint8_t shift;
    uint16_t limit;
    const uint16_t *gains;
    const int32_t *yi, *yq;
    uint8_t *hard;
    int16_t *soft;
    uint8_t *probe_index;
    int64_t *probe_cost;
};

/* writes the answer, and gives the number of probes */
size_t search_frame(const struct searched_frame *frame);

#endif
