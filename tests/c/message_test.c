/* Replays messages on softdemap_map. */
#include "../../include/softdemap.h"
#include "replay.h"

static uint64_t make(const int64_t *n, const struct lent *in, const struct lent *out)
{
    return softdemap_map((uint8_t)n[0], (uint8_t)n[1], (uint8_t)n[2], (uint16_t)n[3], in[0].start, in[0].len, out[0].start, out[0].len,
                         out[1].start, out[1].len);
}

/* a bit byte neither 0 nor 1 */
static uint64_t damage(struct trial *t, size_t input, size_t place)
{
    t->in[input].entries[place] = 2 + below(254);
    return refused(17, 0);
}

static const struct call map = {
    .name = "softdemap_map",
    .groups = "modulations",
    .numbers = 4,
    .in = {{"bits", 1}},
    .out = {{"yi", 4}, {"yq", 4}},
    .order = {4, 5, 6, 10, 17, 15},
    .emptied = 6,
    .make = make,
    .damage = damage,
};

int main(int argc, char **argv)
{
    replay(&map, argc > 1 ? argv[1] : ".", "messages");
    return 0;
}
