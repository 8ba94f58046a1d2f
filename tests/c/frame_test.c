/* Replays frames on softdemap_frame, and on softdemap_frame_weighted: there without weights, and then frames that have them. */
#include "../../include/softdemap.h"
#include "replay.h"

/* the inputs of a frame with weights; one without has the others in the same order */
enum { GAINS, WEIGHTS, YI, YQ };

static uint64_t make(const int64_t *n, const struct lent *in, const struct lent *out)
{
    return softdemap_frame((uint8_t)n[0], (uint8_t)n[1], (uint8_t)n[2], (uint16_t)n[3], (uint16_t)n[4], (uint8_t)n[5], (uint16_t)n[6],
                           in[0].start, in[0].len, in[1].start, in[1].len, in[2].start, in[2].len, out[0].start, out[0].len, out[1].start,
                           out[1].len, out[2].start, out[2].len, out[3].start, out[3].len);
}

static uint64_t make_without_weights(const int64_t *n, const struct lent *in, const struct lent *out)
{
    return softdemap_frame_weighted((uint8_t)n[0], (uint8_t)n[1], (uint8_t)n[2], (uint16_t)n[3], (uint16_t)n[4], (uint8_t)n[5], (uint16_t)n[6],
                                    in[0].start, in[0].len, NULL, 0, in[1].start, in[1].len, in[2].start, in[2].len, out[0].start, out[0].len,
                                    out[1].start, out[1].len, out[2].start, out[2].len, out[3].start, out[3].len);
}

/* the same call with its numbers and buffers by name */
static uint64_t make_weighted(const int64_t *n, const struct lent *in, const struct lent *out)
{
    struct softdemap_header header = {.kind = (uint8_t)n[0],
                                      .bits_i = (uint8_t)n[1],
                                      .bits_q = (uint8_t)n[2],
                                      .payload = (uint16_t)n[3],
                                      .weight = (uint16_t)n[4],
                                      .shift = (uint8_t)n[5],
                                      .limit = (uint16_t)n[6]};
    struct softdemap_received received = {.gains = in[GAINS].start,
                                          .gains_len = in[GAINS].len,
                                          .yi = in[YI].start,
                                          .yi_len = in[YI].len,
                                          .yq = in[YQ].start,
                                          .yq_len = in[YQ].len,
                                          .weights = in[WEIGHTS].start,
                                          .weights_len = in[WEIGHTS].len};
    struct softdemap_reading reading = {.hard = out[0].start,
                                        .hard_len = out[0].len,
                                        .soft = out[1].start,
                                        .soft_len = out[1].len,
                                        .probe_index = out[2].start,
                                        .probe_index_len = out[2].len,
                                        .probe_cost = out[3].start,
                                        .probe_cost_len = out[3].len};
    return softdemap_read(&header, &received, &reading);
}

/* a gain, a weight or a sample out of range, with the symbol's number */
static uint64_t damage_weighted(struct trial *t, size_t input, size_t place)
{
    static const int refusals[] = {[GAINS] = 10, [WEIGHTS] = 7, [YI] = 11, [YQ] = 11};
    int64_t sample = 1048577 + (int64_t)below(1000), unsigned_entry = 4096 + (int64_t)below(61440);
    if (input == WEIGHTS && below(4) == 0)
        unsigned_entry = 0;
    t->in[input].entries[place] = input == GAINS || input == WEIGHTS ? unsigned_entry : below(2) ? sample : -sample;
    return refused(refusals[input], place);
}

static uint64_t damage(struct trial *t, size_t input, size_t place)
{
    int64_t sample = 1048577 + (int64_t)below(1000);
    t->in[input].entries[place] = input == 0 ? 4096 + (int64_t)below(61440) : below(2) ? sample : -sample;
    return refused(input == 0 ? 10 : 11, place);
}

static int has_weights(const struct trial *t)
{
    return t->numbers[0] >= SOFTDEMAP_WEIGHTED;
}

static const struct call frame = {
    .name = "softdemap_frame",
    .groups = "modulations",
    .numbers = 7,
    .in = {{"gains", 2}, {"yi", 4}, {"yq", 4}},
    .out = {{"hard", 1}, {"soft", 2}, {"probe_index", 1}, {"probe_cost", 8}},
    .order = {4, 5, 6, 7, 18, 8, 9, 16, 15, 10, 11},
    .other_length = 16,
    .emptied = 16,
    .make = make,
    .damage = damage,
};

static const struct call weighted_frame = {
    .name = "softdemap_frame_weighted",
    .groups = "modulations",
    .numbers = 7,
    .in = {{"gains", 2}, {"weights", 2}, {"yi", 4}, {"yq", 4}},
    .out = {{"hard", 1}, {"soft", 2}, {"probe_index", 1}, {"probe_cost", 8}},
    .order = {4, 5, 6, 7, 18, 8, 9, 16, 15, 10, 11},
    .other_length = 16,
    .emptied = 16,
    .make = make_weighted,
    .damage = damage_weighted,
    .has_weights = has_weights,
};

int main(int argc, char **argv)
{
    const char *folder = argc > 1 ? argv[1] : ".";
    struct call without_weights = frame;
    without_weights.name = weighted_frame.name;
    without_weights.make = make_without_weights;
    replay(&frame, folder, "frames");
    replay(&without_weights, folder, "frames");
    replay(&weighted_frame, folder, "weighted_frames");
    return 0;
}
