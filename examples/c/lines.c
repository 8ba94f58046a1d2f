/* Frames written as lines of hexadecimal: reads lines from standard input and prints an answer line for each. lines.in has a line of QAM,
 * two of PAM, one of PSK, one of QAM with cellular labels and one of QAM with a weight for each symbol, then lines that are refused by 1, 2, 3, 7, 10, 11
 * and 18, in this order; lines.out has their answers. */
#include <stdio.h>

#include "../../include/softdemap.h"

/* One character more than the longest line has: a line that is too long is cut to this length, which the call refuses by 1. */
enum { LINE_ROOM = SOFTDEMAP_MAX_LINE + 1 };

static uint8_t line[LINE_ROOM];
static uint8_t answer[SOFTDEMAP_MAX_ANSWER];

/* Reads the next line without its newline and gives its length, or -1 behind the last one. Any byte but the newline is a character of the
 * line, also NUL and carriage return. A last line without a newline counts if it has a character. */
static int read_line(void)
{
    int length = 0, c = getchar();
    if (c == EOF)
        return -1;
    for (; c != EOF && c != '\n'; c = getchar())
        if (length < LINE_ROOM)
            line[length++] = (uint8_t)c;
    return length;
}

/* the number in some digits of an accepted line */
static uint16_t field(size_t at, size_t digits)
{
    unsigned number = 0;
    for (size_t i = at; i < at + digits; i++)
        number = 16 * number + (line[i] <= '9' ? line[i] - (unsigned)'0' : line[i] - (unsigned)'A' + 10);
    return (uint16_t)number;
}

/* the characters of the answer to an accepted line, by its header */
static size_t answer_length(void)
{
    struct softdemap_header header = {.kind = (uint8_t)field(0, 2),
                                      .bits_i = (uint8_t)field(2, 2),
                                      .bits_q = (uint8_t)field(4, 2),
                                      .payload = field(6, 4),
                                      .weight = field(10, 4),
                                      .shift = (uint8_t)field(14, 2),
                                      .limit = field(16, 4)};
    struct softdemap_sizes sizes = {0};
    softdemap_sizes_of(&header, &sizes);
    return sizes.answer;
}

static void print_answer(size_t length)
{
    /* 0 where the line is accepted; otherwise the refusal, with the number of the symbol that it is about */
    uint32_t result = softdemap_line(line, length, answer, sizeof answer);

    /* A refused line is answered by two digits. The call has written nothing. */
    if (result != 0) {
        printf("%02X\n", (unsigned)softdemap_refusal_of(result));
        return;
    }

    /* The answer ends in neither a newline nor a NUL: behind it the buffer holds what it held before. */
    fwrite(answer, 1, answer_length(), stdout);
    putchar('\n');
}

int main(void)
{
    for (int length = read_line(); length >= 0; length = read_line())
        print_answer((size_t)length);

    /* a file that cannot be read to its end, or answers that cannot be written */
    return ferror(stdin) || fflush(stdout) != 0 || ferror(stdout) ? 1 : 0;
}
