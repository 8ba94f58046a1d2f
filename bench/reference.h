/* The frame calls in plain C, with the arguments and the answers of softdemap_frame and softdemap_frame_weighted and the same checks. Those with `constant` in
 * their names are the same source, compiled with a copy of the code for each number of bits. */
#ifndef SOFTDEMAP_REFERENCE_H
#define SOFTDEMAP_REFERENCE_H
#include <stddef.h>
#include <stdint.h>

uint64_t reference_frame(uint8_t kind, uint8_t bits_i, uint8_t bits_q, uint16_t payload, uint16_t weight, uint8_t shift, uint16_t limit,
                         const uint16_t *gains, size_t gains_len, const int32_t *yi, size_t yi_len, const int32_t *yq, size_t yq_len,
                         uint8_t *hard, size_t hard_len, int16_t *soft, size_t soft_len, uint8_t *probe_index, size_t probe_index_len,
                         int64_t *probe_cost, size_t probe_cost_len);

uint64_t reference_frame_constant(uint8_t kind, uint8_t bits_i, uint8_t bits_q, uint16_t payload, uint16_t weight, uint8_t shift, uint16_t limit,
                                  const uint16_t *gains, size_t gains_len, const int32_t *yi, size_t yi_len, const int32_t *yq, size_t yq_len,
                                  uint8_t *hard, size_t hard_len, int16_t *soft, size_t soft_len, uint8_t *probe_index, size_t probe_index_len,
                                  int64_t *probe_cost, size_t probe_cost_len);

uint64_t reference_frame_weighted(uint8_t kind, uint8_t bits_i, uint8_t bits_q, uint16_t payload, uint16_t weight, uint8_t shift, uint16_t limit,
                                  const uint16_t *gains, size_t gains_len, const uint16_t *weights, size_t weights_len, const int32_t *yi,
                                  size_t yi_len, const int32_t *yq, size_t yq_len, uint8_t *hard, size_t hard_len, int16_t *soft, size_t soft_len,
                                  uint8_t *probe_index, size_t probe_index_len, int64_t *probe_cost, size_t probe_cost_len);

uint64_t reference_frame_weighted_constant(uint8_t kind, uint8_t bits_i, uint8_t bits_q, uint16_t payload, uint16_t weight, uint8_t shift,
                                           uint16_t limit, const uint16_t *gains, size_t gains_len, const uint16_t *weights, size_t weights_len,
                                           const int32_t *yi, size_t yi_len, const int32_t *yq, size_t yq_len, uint8_t *hard, size_t hard_len,
                                           int16_t *soft, size_t soft_len, uint8_t *probe_index, size_t probe_index_len, int64_t *probe_cost,
                                           size_t probe_cost_len);

#endif
