/* The output buffers of softdemap_frame, which are filled before a call, so that it is seen where a call wrote. */
#ifndef SOFTDEMAP_COMPARE_OUTPUTS_H
#define SOFTDEMAP_COMPARE_OUTPUTS_H

#include <algorithm>
#include <cstddef>
#include <cstdint>
#include <cstring>

/* every byte of a filled entry: no bit byte, and no index */
enum { FILL = 0x55 };

/* how many of the entries do not hold what they were filled with */
template <typename T> size_t changed(const T *entries, size_t count)
{
    T filled;
    memset(&filled, FILL, sizeof filled);
    return count - (size_t)std::count(entries, entries + count, filled);
}

template <size_t BITS, size_t PROBES> struct Outputs {
    enum { ENTRIES = 2 * BITS + 2 * PROBES };
    uint8_t hard[BITS];
    int16_t soft[BITS];
    uint8_t probe_index[PROBES];
    int64_t probe_cost[PROBES];

    void fill()
    {
        memset(hard, FILL, sizeof hard);
        memset(soft, FILL, sizeof soft);
        memset(probe_index, FILL, sizeof probe_index);
        memset(probe_cost, FILL, sizeof probe_cost);
    }

    /* how many entries were changed behind an answer of so many bits and probes; of 0 and 0: how many at all */
    size_t changed_behind(size_t bits, size_t probes) const
    {
        return changed(hard + bits, BITS - bits) + changed(soft + bits, BITS - bits) + changed(probe_index + probes, PROBES - probes)
               + changed(probe_cost + probes, PROBES - probes);
    }
};

#endif
