#include "replay.h"

#include <stdio.h>
#include <stdlib.h>
#include <string.h>

enum { GUARD = 16, OFFSETS = 8, MOST_SPARE = 40 };

/* what a buffer's memory holds, and what it should hold after the call, guards included */
struct memory {
    unsigned char *got, *want;
    size_t bytes, used, at;
};

static struct memory inputs[MOST_BUFFERS], outputs[MOST_BUFFERS];

/* the file that is replayed, its line, and what was counted */
static const char *file_name;
static unsigned long line_number, cases, calls, answered[256], nulls[2][MOST_BUFFERS];

static void fail(const char *why)
{
    printf("%s, line %lu: %s\n", file_name, line_number, why);
    exit(1);
}

static void *allocated(size_t bytes)
{
    void *memory = malloc(bytes);
    if (memory == NULL)
        fail("no memory");
    return memory;
}

/* ---- random bytes ---- */

static uint64_t draw(void)
{
    static uint64_t state = 7;
    uint64_t z = state += 0x9E3779B97F4A7C15u;
    z = (z ^ z >> 30) * 0xBF58476D1CE4E5B9u;
    z = (z ^ z >> 27) * 0x94D049BB133111EBu;
    return z ^ z >> 31;
}

uint32_t below(uint32_t n)
{
    return (uint32_t)((draw() >> 32) * n >> 32);
}

/* copies of random places of a store of random bytes */
static void fill(unsigned char *start, size_t bytes)
{
    enum { PIECE = 4096 };
    static uint64_t store[2048];
    if (store[0] == 0)
        for (size_t i = 0; i < sizeof store / sizeof *store; i++)
            store[i] = draw();
    for (size_t done = 0; done < bytes; done += PIECE) {
        size_t piece = bytes - done < PIECE ? bytes - done : PIECE;
        memcpy(start + done, (const char *)store + below((uint32_t)(sizeof store - piece)), piece);
    }
}

/* ---- guarded memory ---- */

static void put(unsigned char *start, size_t size, int64_t value)
{
    uint8_t one = (uint8_t)value;
    uint16_t two = (uint16_t)value;
    uint32_t four = (uint32_t)value;
    memcpy(start, size == 1 ? (void *)&one : size == 2 ? (void *)&two : size == 4 ? (void *)&four : (void *)&value, size);
}

static void put_all(unsigned char *start, size_t size, const struct list *list)
{
    for (size_t i = 0; i < list->len && i < list->known; i++)
        put(start + i * size, size, list->entries[i]);
}

/* random bytes round and in `len` entries, the same in both memories */
static void set_up(struct memory *m, size_t size, size_t len)
{
    m->used = (GUARD + OFFSETS + len + GUARD) * size;
    m->at = (GUARD + below(OFFSETS)) * size;
    if (m->used > m->bytes) {
        free(m->got);
        free(m->want);
        m->bytes = 2 * m->used;
        m->got = allocated(m->bytes);
        m->want = allocated(m->bytes);
    }
    fill(m->got, m->used);
    memcpy(m->want, m->got, m->used);
}

/* the buffer as it is lent; without entries it is NULL where that is asked for */
static struct lent lend(struct memory *m, size_t len, int as_null, unsigned long *count)
{
    int null = len == 0 && as_null;
    *count += (unsigned long)null;
    return (struct lent){null ? NULL : m->got + m->at, len};
}

/* ---- one call ---- */

static void print_difference(const struct memory *m, const struct buffer *b, size_t len)
{
    printf("  %s, %zu entries", b->name, len);
    for (size_t i = 0; i < m->used; i++) {
        if (m->got[i] != m->want[i]) {
            long entry = ((long)i - (long)m->at) / (long)b->size - ((long)i < (long)m->at);
            printf(": in entry %ld a byte is %02x, should be %02x", entry, m->got[i], m->want[i]);
            break;
        }
    }
    printf("\n");
}

static void fail_trial(const struct call *call, const struct trial *t, uint64_t result)
{
    printf("%s, %s, gives %#llx, should give %#llx\n  numbers", call->name, t->what, (unsigned long long)result,
           (unsigned long long)t->result);
    for (size_t i = 0; i < call->numbers; i++)
        printf(" %lld", (long long)t->numbers[i]);
    printf("\n");
    for (size_t i = 0; call->in[i].name != NULL; i++)
        print_difference(&inputs[i], &call->in[i], t->in[i].len);
    for (size_t i = 0; call->out[i].name != NULL; i++)
        print_difference(&outputs[i], &call->out[i], t->room[i]);
    fail("the call differs from the reference");
}

/* makes the call, and compares the result and all memory */
static void try_once(const struct call *call, const struct trial *t, int as_null)
{
    struct lent in[MOST_BUFFERS], out[MOST_BUFFERS];
    for (size_t i = 0; call->in[i].name != NULL; i++) {
        set_up(&inputs[i], call->in[i].size, t->in[i].len);
        put_all(inputs[i].got + inputs[i].at, call->in[i].size, &t->in[i]);
        memcpy(inputs[i].want, inputs[i].got, inputs[i].used);
        in[i] = lend(&inputs[i], t->in[i].len, as_null, &nulls[0][i]);
    }
    for (size_t i = 0; call->out[i].name != NULL; i++) {
        set_up(&outputs[i], call->out[i].size, t->room[i]);
        put_all(outputs[i].want + outputs[i].at, call->out[i].size, &t->out[i]);
        out[i] = lend(&outputs[i], t->room[i], as_null, &nulls[1][i]);
    }
    uint64_t result = call->make(t->numbers, in, out);
    int same = result == t->result;
    for (size_t i = 0; call->in[i].name != NULL; i++)
        same &= memcmp(inputs[i].got, inputs[i].want, inputs[i].used) == 0;
    for (size_t i = 0; call->out[i].name != NULL; i++)
        same &= memcmp(outputs[i].got, outputs[i].want, outputs[i].used) == 0;
    if (!same)
        fail_trial(call, t, result);
    calls++;
    answered[result & 255]++;
}

/* the same, and where a buffer has no entries once more with NULL for each such buffer */
static void try_trial(const struct call *call, const struct trial *t)
{
    int empty = 0;
    for (size_t i = 0; call->in[i].name != NULL; i++)
        empty |= t->in[i].len == 0;
    for (size_t i = 0; call->out[i].name != NULL; i++)
        empty |= t->room[i] == 0;
    try_once(call, t, 0);
    if (empty)
        try_once(call, t, 1);
}

/* ---- what follows from a case ---- */

/* the trial refused: nothing is written */
static struct trial refusing(const struct trial *t, const char *what, uint64_t result)
{
    struct trial other = *t;
    other.what = what;
    other.result = result;
    for (size_t i = 0; i < MOST_BUFFERS; i++)
        other.out[i].len = other.out[i].known = 0;
    return other;
}

/* the result where a trial is also to be refused by 15: that of the two that comes first */
static uint64_t first_of_room(const struct call *call, const struct trial *t)
{
    int refusal = (int)(t->result & 255);
    int of_symbol = refusal == 7 && call->has_weights != NULL && call->has_weights(t);
    for (size_t i = 0; call->order[i] != 15 && !of_symbol; i++)
        if (call->order[i] == refusal)
            return t->result;
    return 15;
}

/* longer outputs change nothing; without any room the call is refused by 15 or an earlier number; one entry less than the answer by 15 */
static void try_rooms(const struct call *call, const struct trial *t)
{
    struct trial longer = *t, none = refusing(t, "without room", first_of_room(call, t));
    longer.what = "with longer outputs";
    for (size_t i = 0; call->out[i].name != NULL; i++) {
        longer.room[i] += 1 + below(MOST_SPARE);
        none.room[i] = 0;
    }
    if ((t->result & 255) != 15)
        try_trial(call, &longer);
    size_t entries = 0;
    for (size_t i = 0; i < MOST_BUFFERS; i++) {
        entries += t->out[i].len;
        if (t->out[i].len > 0) {
            struct trial shorter = refusing(t, "with an output one entry short", 15);
            shorter.room[i] = t->out[i].len - 1;
            try_trial(call, &shorter);
            shorter.what = "with an output without entries";
            shorter.room[i] = 0;
            try_trial(call, &shorter);
        }
    }
    if ((uint32_t)t->result != 0 || entries > 0)
        try_trial(call, &none);
}

/* one entry more, one less, and none, of each input of an accepted case, also without room for the answer */
static void try_lengths(const struct call *call, const struct trial *t)
{
    for (size_t i = 0; call->in[i].name != NULL; i++) {
        struct trial other = refusing(t, "with an input of another length", (uint64_t)call->other_length);
        other.in[i].len = t->in[i].len + 1;
        try_trial(call, &other);
        other.room[0] = 0;
        try_trial(call, &other);
        other.room[0] = t->room[0];
        if (t->in[i].len > 0) {
            other.in[i].len = t->in[i].len - 1;
            try_trial(call, &other);
        }
    }
}

static void try_emptied(const struct call *call, const struct trial *t)
{
    for (size_t i = 0; call->in[i].name != NULL; i++) {
        struct trial other = refusing(t, "with an input without entries", (uint64_t)call->emptied);
        if (t->in[i].len > 0) {
            other.in[i].len = 0;
            try_trial(call, &other);
        }
    }
}

/* a bad entry at any place of each input of an accepted case */
static void try_damages(const struct call *call, const struct trial *t)
{
    for (size_t i = 0; call->in[i].name != NULL; i++) {
        if (t->in[i].len > 0) {
            struct trial other = refusing(t, "with a bad entry", 0);
            size_t place = below((uint32_t)t->in[i].len);
            int64_t before = t->in[i].entries[place];
            other.result = call->damage(&other, i, place);
            try_trial(call, &other);
            t->in[i].entries[place] = before;
        }
    }
}

static void try_case(const struct call *call, const struct trial *t)
{
    try_trial(call, t);
    if (!call->single)
        try_rooms(call, t);
    if ((uint32_t)t->result != 0)
        return;
    if (call->other_length != 0)
        try_lengths(call, t);
    if (call->emptied != 0)
        try_emptied(call, t);
    if (call->damage != NULL)
        try_damages(call, t);
}

/* ---- the file ---- */

/* the text of a file, ended by NUL, and room for as many numbers as its longest line has */
struct text {
    char *start, *at;
    int64_t *numbers;
    size_t used;
};

static struct text read_text(const char *folder, const char *name)
{
    char path[4096];
    struct text text = {NULL, NULL, NULL, 0};
    if (snprintf(path, sizeof path, "%s/%s", folder, name) >= (int)sizeof path)
        fail("the path is too long");
    FILE *file = fopen(path, "rb");
    if (file == NULL || fseek(file, 0, SEEK_END) != 0)
        fail("the file cannot be read: run tests/reference/make --cases");
    long size = ftell(file);
    rewind(file);
    text.at = text.start = allocated((size_t)size + 1);
    if (fread(text.start, 1, (size_t)size, file) != (size_t)size)
        fail("the file cannot be read");
    fclose(file);
    text.start[size] = 0;
    size_t longest = 0, length = 0;
    for (long i = 0; i < size; i++) {
        length = text.start[i] == '\n' ? 0 : length + 1;
        longest = length > longest ? length : longest;
    }
    text.numbers = allocated((longest / 2 + 2) * sizeof *text.numbers);
    return text;
}

static int64_t number(struct text *text)
{
    char *end;
    long long value = strtoll(text->at, &end, 10);
    if (end == text->at)
        fail("a number is missing");
    text->at = end;
    return value;
}

static struct list read_list(struct text *text)
{
    size_t len = (size_t)number(text);
    struct list list = {len, len, text->numbers + text->used};
    for (size_t i = 0; i < len; i++)
        list.entries[i] = number(text);
    text->used += len;
    return list;
}

static struct trial read_case(const struct call *call, struct text *text)
{
    struct trial t = {.what = "as in the file", .group = number(text)};
    text->used = 0;
    for (size_t i = 0; i < call->numbers; i++)
        t.numbers[i] = number(text);
    for (size_t i = 0; call->in[i].name != NULL; i++)
        t.in[i] = read_list(text);
    for (size_t i = 0; call->out[i].name != NULL; i++)
        t.room[i] = (size_t)number(text);
    int refusal = (int)number(text);
    t.result = refused(refusal, (size_t)number(text)) + ((uint64_t)number(text) << 32);
    for (size_t i = 0; refusal == 0 && call->out[i].name != NULL; i++)
        t.out[i] = read_list(text);
    if (*text->at++ != '\n')
        fail("the case does not end with its line");
    return t;
}

static void check_and_print(const struct call *call, const unsigned long *groups, size_t count)
{
    unsigned long accepted = 0, least = count == 0 ? 0 : groups[0];
    for (size_t i = 0; i < count; i++) {
        accepted += groups[i];
        least = groups[i] < least ? groups[i] : least;
    }
    printf("%s: %lu cases, %lu accepted, at least %lu in each of %zu %s; %lu calls, %lu accepted, refused", file_name, cases, accepted,
           least, count, call->groups, calls, answered[0]);
    for (size_t i = 0; call->order[i] != 0; i++)
        printf(" %lu by %d%s", answered[call->order[i]], call->order[i], call->order[i + 1] != 0 ? "," : "\n");
    if (least == 0)
        fail("a group was never accepted");
    for (size_t i = 0; call->order[i] != 0; i++)
        if (answered[call->order[i]] == 0)
            fail("a refusal was never met");
    for (size_t i = 0; i < MOST_BUFFERS && !call->single; i++)
        if ((call->in[i].name != NULL && nulls[0][i] == 0) || (call->out[i].name != NULL && nulls[1][i] == 0))
            fail("a buffer was never lent as NULL");
}

void replay(const struct call *call, const char *folder, const char *name)
{
    file_name = name;
    line_number = 1;
    cases = calls = 0;
    memset(answered, 0, sizeof answered);
    memset(nulls, 0, sizeof nulls);
    struct text text = read_text(folder, name);
    size_t count = (size_t)number(&text);
    unsigned long *groups = allocated(count * sizeof *groups);
    memset(groups, 0, count * sizeof *groups);
    for (text.at++; *text.at != 0; cases++) {
        line_number++;
        struct trial t = read_case(call, &text);
        if (t.group >= 0 && t.group < (int64_t)count)
            groups[t.group]++;
        try_case(call, &t);
    }
    check_and_print(call, groups, count);
    free(groups);
    free(text.numbers);
    free(text.start);
}
