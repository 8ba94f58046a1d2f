/* The job of the program softlines in plain C: an answer line on standard output for each line of standard input. Digits are read by a table
 * of 256 entries and the frame by reference_frame. Whatever the input, the memory is that of the buffers here: lines are read where they
 * stand in a piece of the input, and only one that crosses two pieces is held. */
#include <string.h>
#include <unistd.h>

#include "reference.h"

enum { PIECE = 65536, LONGEST_LINE = 6164, LONGEST_ANSWER = 12294, HEADER = 20 };
enum { MOST_SYMBOLS = (LONGEST_LINE - HEADER) / 12 + 1, MOST_PAYLOAD = 256 * 12, MOST_PROBES = 256 * 14 };
enum { NO_DIGIT = 0xF0 };

static uint8_t digit_value[256]; /* 0 to 15, or NO_DIGIT */

static uint8_t input[PIECE];
static uint8_t held[LONGEST_LINE]; /* the start of a line that goes on in the next piece */
static size_t held_len;            /* its length so far, also beyond the buffer */
static uint8_t output[PIECE + LONGEST_ANSWER + 1];
static size_t output_len;

static uint16_t gains[MOST_SYMBOLS], weights[MOST_SYMBOLS];
static int32_t yi[MOST_SYMBOLS], yq[MOST_SYMBOLS];
static uint8_t hard[MOST_PAYLOAD];
static int16_t soft[MOST_PAYLOAD];
static uint8_t probe_index[MOST_PROBES];
static int64_t probe_cost[MOST_PROBES];

static void set_digit_values(void)
{
    memset(digit_value, NO_DIGIT, sizeof digit_value);
    for (int i = 0; i < 16; i++)
        digit_value[(uint8_t)"0123456789ABCDEF"[i]] = (uint8_t)i;
}

/* Numbers of 2, 4 and 8 digits. What was met is gathered in `seen`, which is below 16 as long as all characters are digits. */
static inline uint32_t two_digits(const uint8_t *at, uint32_t *seen)
{
    uint32_t a = digit_value[at[0]], b = digit_value[at[1]];
    *seen |= a | b;
    return a << 4 | b;
}

static inline uint32_t four_digits(const uint8_t *at, uint32_t *seen)
{
    uint32_t a = digit_value[at[0]], b = digit_value[at[1]], c = digit_value[at[2]], d = digit_value[at[3]];
    *seen |= a | b | c | d;
    return a << 12 | b << 8 | c << 4 | d;
}

static inline uint32_t eight_digits(const uint8_t *at, uint32_t *seen)
{
    return four_digits(at, seen) << 16 | four_digits(at + 4, seen);
}

static inline uint8_t *put_four(uint8_t *at, uint32_t number)
{
    static const char digits[] = "0123456789ABCDEF";
    at[0] = (uint8_t)digits[number >> 12 & 15];
    at[1] = (uint8_t)digits[number >> 8 & 15];
    at[2] = (uint8_t)digits[number >> 4 & 15];
    at[3] = (uint8_t)digits[number & 15];
    return at + 4;
}

/* reads `count` symbols; returns the position behind them */
static const uint8_t *read_pam(const uint8_t *at, size_t count, uint32_t *seen)
{
    for (size_t n = 0; n < count; n++, at += 12) {
        gains[n] = (uint16_t)four_digits(at, seen);
        yi[n] = (int32_t)eight_digits(at + 4, seen);
    }
    return at;
}

static const uint8_t *read_pairs(const uint8_t *at, size_t count, uint32_t *seen)
{
    for (size_t n = 0; n < count; n++, at += 20) {
        gains[n] = (uint16_t)four_digits(at, seen);
        yi[n] = (int32_t)eight_digits(at + 4, seen);
        yq[n] = (int32_t)eight_digits(at + 12, seen);
    }
    return at;
}

/* the same with a weight behind each gain */
static const uint8_t *read_weighted(const uint8_t *at, size_t count, int pairs, uint32_t *seen)
{
    for (size_t n = 0; n < count; n++, at += pairs ? 24 : 16) {
        gains[n] = (uint16_t)four_digits(at, seen);
        weights[n] = (uint16_t)four_digits(at + 4, seen);
        yi[n] = (int32_t)eight_digits(at + 8, seen);
        if (pairs)
            yq[n] = (int32_t)eight_digits(at + 16, seen);
    }
    return at;
}

/* Reads a line into soft values. The symbols are those that stand in the line; where digits are left over the frame is given none. Returns
 * the answer of reference_frame, whose refusal 16 is refusal 3 of a line. */
static uint64_t read_line(const uint8_t *line, size_t length, uint32_t *payload)
{
    if (length % 2 != 0 || length < HEADER || length > LONGEST_LINE)
        return 1;
    uint32_t seen = 0;
    uint8_t kind = (uint8_t)two_digits(line, &seen), bits_i = (uint8_t)two_digits(line + 2, &seen);
    uint8_t bits_q = (uint8_t)two_digits(line + 4, &seen), shift = (uint8_t)two_digits(line + 14, &seen);
    uint16_t weight = (uint16_t)four_digits(line + 10, &seen), limit = (uint16_t)four_digits(line + 16, &seen);
    *payload = four_digits(line + 6, &seen);
    int pam = (kind & 0x7F) == 0, weighted = kind >= 0x80;
    size_t width = (pam ? 12 : 20) + (weighted ? 4 : 0), symbols = (length - HEADER) / width;
    const uint8_t *end = line + length, *at = line + HEADER;
    if (weighted)
        at = read_weighted(at, symbols, !pam, &seen);
    else
        at = pam ? read_pam(at, symbols, &seen) : read_pairs(at, symbols, &seen);
    if (at != end)
        symbols = 0;
    for (; at != end; at++)
        seen |= digit_value[*at];
    if (seen > 15)
        return 2;
    uint64_t answer = reference_frame_weighted(kind, bits_i, bits_q, (uint16_t)*payload, weight, shift, limit, gains, symbols, weights,
                                               weighted ? symbols : 0, yi, symbols, yq, pam ? 0 : symbols, hard, MOST_PAYLOAD, soft,
                                               MOST_PAYLOAD, probe_index, MOST_PROBES, probe_cost, MOST_PROBES);
    return answer == 16 ? 3 : answer;
}

/* writes all of the output; ends the program where that fails */
static void write_output(void)
{
    for (size_t done = 0; done < output_len;) {
        ssize_t written = write(1, output + done, output_len - done);
        if (written <= 0)
            _exit(1);
        done += (size_t)written;
    }
    output_len = 0;
}

static void answer_line(const uint8_t *line, size_t length)
{
    uint32_t payload = 0;
    uint64_t answer = read_line(line, length, &payload);
    uint8_t *at = output + output_len;
    if ((uint32_t)answer != 0) {
        *at++ = (uint8_t)('0' + (answer >> 4 & 1));
        *at++ = (uint8_t)"0123456789ABCDEF"[answer & 15];
    } else {
        *at++ = '0';
        *at++ = '0';
        at = put_four(at, (uint32_t)(answer >> 32));
        for (uint32_t i = 0; i < payload; i++)
            at = put_four(at, (uint16_t)soft[i]);
    }
    *at++ = '\n';
    output_len = (size_t)(at - output);
    if (output_len >= PIECE)
        write_output();
}

static void hold(const uint8_t *start, size_t length)
{
    if (held_len < LONGEST_LINE) {
        size_t room = LONGEST_LINE - held_len;
        memcpy(held + held_len, start, length < room ? length : room);
    }
    held_len += length;
}

/* the lines that end in a piece of the input; what is left behind the last newline is held */
static void answer_lines(const uint8_t *at, size_t length)
{
    const uint8_t *newline, *end = at + length;
    while ((newline = memchr(at, '\n', (size_t)(end - at))) != NULL) {
        if (held_len == 0) {
            answer_line(at, (size_t)(newline - at));
        } else {
            hold(at, (size_t)(newline - at));
            answer_line(held, held_len);
            held_len = 0;
        }
        at = newline + 1;
    }
    hold(at, (size_t)(end - at));
}

int main(void)
{
    ssize_t length;
    set_digit_values();
    while ((length = read(0, input, sizeof input)) > 0)
        answer_lines(input, (size_t)length);
    if (held_len > 0)
        answer_line(held, held_len);
    write_output();
    return length < 0;
}
