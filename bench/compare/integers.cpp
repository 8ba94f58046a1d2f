/* softdemap_frame beside search.c, which searches every point with integers: all entries of every modulation, in frames with and without
 * padding. The draws are uniform: ties, halves and the ends of ranges are the job of crates/trials and tests/c/frame_test.c. */
#include <cstdio>
#include <iterator>

#include "../../include/softdemap.h"
#include "outputs.h"
#include "tables.h"

extern "C" {
#include "search.h"
}
#include "../timing.h"

namespace
{

enum { FRAMES = 40, MOST_GAIN = 4095, MOST_SAMPLE = 1048576 };

using FrameOutputs = Outputs<BLOCK * 12, BLOCK * 14>;

/* what was compared: frames, those with padding among them, entries of the answers and behind them, and those that differ */
struct Counts {
    size_t modulations = 0, frames = 0, padded = 0, answered = 0, behind = 0, wrong = 0;
};

uint16_t gains[BLOCK];
int32_t yi[BLOCK], yq[BLOCK];
FrameOutputs ours, searched;

/* a sample of an axis with so many bits, within about twice its outermost levels; every eighth, and all of PSK, anywhere in the range */
int32_t random_sample(int kind, int bits, int32_t gain)
{
    int32_t reach = kind == PSK || random32() % 8 == 0 ? MOST_SAMPLE : (gain << (bits + 1)) + 1;
    return (int32_t)(random32() % (2u * (uint32_t)reach + 1)) - reach;
}

/* 256 symbols with 0 to b - 1 bits of padding, b being the bits of a symbol */
searched_frame random_frame(const Modulation &m, FrameOutputs &out)
{
    searched_frame c = {};
    c.kind = (uint8_t)m.kind;
    c.bits_i = (uint8_t)m.bits_i;
    c.bits_q = (uint8_t)m.bits_q;
    c.payload = (uint16_t)((uint32_t)(BLOCK * m.bits()) - random32() % (uint32_t)m.bits());
    c.weight = (uint16_t)(1 + random32() % 4095);
    c.shift = (uint8_t)(random32() % 41);
    c.limit = (uint16_t)(1 + random32() % 32767);
    c.gains = gains;
    c.yi = yi;
    c.yq = yq;
    c.hard = out.hard;
    c.soft = out.soft;
    c.probe_index = out.probe_index;
    c.probe_cost = out.probe_cost;
    for (int n = 0; n < BLOCK; n++) {
        gains[n] = (uint16_t)(random32() % (MOST_GAIN + 1));
        yi[n] = random_sample(m.kind, m.bits_i, gains[n]);
        yq[n] = random_sample(m.kind, m.bits_q, gains[n]);
    }
    return c;
}

template <typename T> size_t differing(const T *a, const T *b, size_t count)
{
    size_t found = 0;
    for (size_t i = 0; i < count; i++)
        found += a[i] != b[i];
    return found;
}

/* reads one random frame both ways; entries behind the answer are to hold what they held before */
void compare_frame(const Modulation &m, Counts &counts)
{
    searched_frame c = random_frame(m, searched);
    size_t payload = c.payload, probes = BLOCK * (size_t)(m.bits() + (m.bits_q > 0 ? 2 : 1)), entries = 2 * payload + 2 * probes;
    ours.fill();
    uint64_t answer = softdemap_frame(c.kind, c.bits_i, c.bits_q, c.payload, c.weight, c.shift, c.limit, gains, BLOCK, yi, BLOCK, yq,
                                      m.kind == PAM ? 0 : BLOCK, ours.hard, std::size(ours.hard), ours.soft, std::size(ours.soft),
                                      ours.probe_index, std::size(ours.probe_index), ours.probe_cost, std::size(ours.probe_cost));
    counts.wrong += answer != (uint64_t)search_frame(&c) << 32;
    counts.wrong += differing(ours.hard, searched.hard, payload) + differing(ours.soft, searched.soft, payload);
    counts.wrong += differing(ours.probe_index, searched.probe_index, probes) + differing(ours.probe_cost, searched.probe_cost, probes);
    counts.wrong += ours.changed_behind(payload, probes);
    counts.frames++;
    counts.padded += payload % (size_t)m.bits() != 0;
    counts.answered += 1 + entries;
    counts.behind += FrameOutputs::ENTRIES - entries;
}

/* all modulations of a kind */
Counts compare_kind(const char *name, int kind)
{
    Counts counts;
    for (int i = 1; i <= (kind == PSK ? 4 : kind == CELLULAR ? 3 : 6); i++) {
        int least = kind == QAM ? 1 : kind == CELLULAR ? i : 0, most = kind == QAM ? 6 : least;
        for (int q = least; q <= most; q++, counts.modulations++)
            for (int frame = 0; frame < FRAMES; frame++)
                compare_frame({name, kind, i, q}, counts);
    }
    return counts;
}

} // namespace

bool print_integers()
{
    static const char *const names[] = {"PAM", "QAM", "PSK", "cellular"};
    size_t wrong = 0;
    printf("| softdemap | modulations | frames of 256 symbols | with padding | entries of the answers | entries behind them | "
           "entries that differ |\n|---|---|---|---|---|---|---|\n");
    for (int kind = PAM; kind <= CELLULAR; kind++) {
        Counts c = compare_kind(names[kind], kind);
        printf("| %s | %zu | %zu | %zu | %zu | %zu | %zu |\n", names[kind], c.modulations, c.frames, c.padded, c.answered, c.behind, c.wrong);
        wrong += c.wrong;
    }
    return wrong == 0;
}
