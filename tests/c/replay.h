/* Replays a file of cases, which tests/reference makes, on a call of the library. Each case is tried as it stands and with other lengths of
 * its buffers and damaged entries. Every buffer stands between guard entries, at a random place, and holds random bytes before the call, so
 * a write outside the answer, on a refusal, or into an input is seen. The first difference ends the program. */
#ifndef SOFTDEMAP_REPLAY_H
#define SOFTDEMAP_REPLAY_H

#include <stddef.h>
#include <stdint.h>

enum { MOST_NUMBERS = 8, MOST_BUFFERS = 5, MOST_REFUSALS = 16 };

/* a buffer of a call: its name, and the bytes of an entry; a name of NULL ends a list of them */
struct buffer {
    const char *name;
    size_t size;
};

/* a buffer as it is lent: NULL only where it has no entries */
struct lent {
    void *start;
    size_t len;
};

/* `known` entries of a list of `len`; those behind them are random */
struct list {
    size_t len, known;
    int64_t *entries;
};

/* a case: its group, which is -1 where it is refused; the call's arguments; the result; and the entries written, none where it is refused */
struct trial {
    const char *what;
    int64_t group, numbers[MOST_NUMBERS];
    struct list in[MOST_BUFFERS], out[MOST_BUFFERS];
    size_t room[MOST_BUFFERS];
    uint64_t result;
};

/* A call. `groups` says what the groups of its cases are. */
struct call {
    const char *name, *groups;
    size_t numbers;
    struct buffer in[MOST_BUFFERS + 1], out[MOST_BUFFERS + 1];
    int order[MOST_REFUSALS]; /* the refusals in their order; 0 ends them */
    int single;               /* whether each output is a pointer to one entry, without a length */
    int other_length;         /* the refusal of an input that is one longer or shorter than in an accepted call; 0 where there is none */
    int emptied;              /* the refusal of an input without entries; 0 where there is none */
    uint64_t (*make)(const int64_t *numbers, const struct lent *in, const struct lent *out);
    /* sets an entry of an input of an accepted call to a bad value, and gives the result; NULL where an input has no bad values */
    uint64_t (*damage)(struct trial *trial, size_t input, size_t place);
    /* whether the symbols of a case have weights, so that 7 is given with a symbol, behind 15; NULL where 7 is none of a symbol */
    int (*has_weights)(const struct trial *trial);
};

/* replays the file `name` of the folder, prints the counts in one line, and ends the program if a group was never accepted, a refusal never
 * met, or a buffer never lent as NULL */
void replay(const struct call *call, const char *folder, const char *name);

/* 0 to n - 1, from a fixed seed */
uint32_t below(uint32_t n);

/* the result of a refusal with the number of a symbol or sample */
static inline uint64_t refused(int refusal, size_t symbol)
{
    return (uint64_t)refusal + 256 * (uint64_t)symbol;
}

#endif
