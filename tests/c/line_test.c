/* Replays lines on softdemap_line, and sees that the longest line and the longest answer are those that the header gives. */
#include <stdio.h>
#include <string.h>

#include "../../include/softdemap.h"
#include "replay.h"

/* the longest line that was accepted, and the longest buffer that was too short for an answer */
static size_t longest_line, longest_short;

static size_t greater(size_t a, size_t b)
{
    return a > b ? a : b;
}

static uint64_t make(const int64_t *n, const struct lent *in, const struct lent *out)
{
    (void)n;
    uint32_t result = softdemap_line(in[0].start, in[0].len, out[0].start, out[0].len);
    if (result == 0)
        longest_line = greater(longest_line, in[0].len);
    if (result == 15)
        longest_short = greater(longest_short, out[0].len);
    return result;
}

/* whether the first digit of the kind is 8 or more */
static int has_weights(const struct trial *t)
{
    return t->in[0].len > 0 && t->in[0].entries[0] >= '8';
}

/* a character that is no digit */
static uint64_t damage(struct trial *t, size_t input, size_t place)
{
    uint32_t character = below(256);
    while (memchr("0123456789ABCDEF", (int)character, 16) != NULL)
        character = below(256);
    t->in[input].entries[place] = character;
    return refused(2, 0);
}

static const struct call line = {
    .name = "softdemap_line",
    .groups = "modulations, plain and with weights",
    .in = {{"line", 1}},
    .out = {{"answer", 1}},
    .order = {1, 2, 4, 5, 6, 7, 18, 8, 9, 3, 15, 10, 11},
    .other_length = 1,
    .emptied = 1,
    .make = make,
    .damage = damage,
    .has_weights = has_weights,
};

int main(int argc, char **argv)
{
    replay(&line, argc > 1 ? argv[1] : ".", "lines");
    if (longest_line == SOFTDEMAP_MAX_LINE && longest_short + 1 == SOFTDEMAP_MAX_ANSWER)
        return 0;
    printf("lines: the longest line has %zu characters, the longest answer %zu, and not as many as the header gives\n", longest_line,
           longest_short + 1);
    return 1;
}
