/* Prints lines for the benchmark of programs that answer lines: make_lines COUNT LEAST MOST prints COUNT lines of LEAST to MOST symbols, the
 * same at every run. Modulations, padding, gains and samples are random, the samples in any direction for PSK and near points for the other kinds;
 * one line in 50 is damaged so that it is refused. */
#include <stdio.h>
#include <string.h>

#include "timing.h"

enum { PAM = 0, QAM = 1, PSK = 2, CELLULAR = 3, MOST_SYMBOLS = 256, LONGEST_LINE = 6164 };

static char line[LONGEST_LINE + 1];
static size_t line_len;

static uint32_t from_to(uint32_t least, uint32_t most)
{
    return least + random32() % (most - least + 1);
}

static void append(uint32_t number, int digits)
{
    line_len += (size_t)sprintf(line + line_len, "%0*X", digits, (unsigned)number);
}

/* a level of an axis times the gain, with noise up to the gain; for PSK up to 16384 in size */
static uint32_t sample(uint32_t kind, uint32_t bits, uint32_t gain)
{
    if (kind == PSK)
        return from_to(0, 32768) - 16384;
    uint32_t top = (1u << bits) - 1;
    return gain * (2 * from_to(0, top) - top) + from_to(0, 2 * gain) - gain;
}

static void make_line(uint32_t symbols)
{
    static const uint32_t most_bits[] = {[PAM] = 6, [QAM] = 6, [PSK] = 4, [CELLULAR] = 3};
    uint32_t kind = from_to(PAM, CELLULAR), bits_i = from_to(1, most_bits[kind]);
    uint32_t bits_q = kind == QAM ? from_to(1, 6) : kind == CELLULAR ? bits_i : 0;
    line_len = 0;
    append(kind, 2);
    append(bits_i, 2);
    append(bits_q, 2);
    append(symbols * (bits_i + bits_q) - from_to(0, bits_i + bits_q - 1), 4);
    append(100, 4);
    append(kind == PSK ? 19 : 16, 2); /* most soft values below the limit, some held */
    append(32767, 4);
    for (uint32_t n = 0; n < symbols; n++) {
        uint32_t gain = from_to(200, 3200);
        append(gain, 4);
        append(sample(kind, bits_i, gain), 8);
        if (kind != PAM)
            append(sample(kind, bits_q, gain), 8);
    }
}

/* by 1, 2, 7 or 10 */
static void damage_line(void)
{
    uint32_t way = from_to(0, 3);
    if (way == 0)
        line[line_len - 1] = '\0';
    else if (way == 1)
        line[from_to(0, (uint32_t)line_len - 1)] = 'x';
    else
        memset(line + (way == 2 ? 10 : 20), 'F', 4); /* the weight, or the first gain */
}

int main(int count, char **words)
{
    int lines = count == 4 ? atoi(words[1]) : 0, least = count == 4 ? atoi(words[2]) : 0, most = count == 4 ? atoi(words[3]) : 0;
    if (lines < 1 || least < 1 || most < least || most > MOST_SYMBOLS) {
        fprintf(stderr, "usage: make_lines COUNT LEAST MOST, where LEAST and MOST are 1 to %d symbols\n", MOST_SYMBOLS);
        return 1;
    }
    for (int i = 0; i < lines; i++) {
        make_line(from_to((uint32_t)least, (uint32_t)most));
        if (random32() % 50 == 0)
            damage_line();
        puts(line);
    }
    return fflush(stdout) != 0;
}
