/* What the three examples share: the message, its noise, and the printing. */
#ifndef SOFTDEMAP_EXAMPLES_COMMON_H
#define SOFTDEMAP_EXAMPLES_COMMON_H

#include <inttypes.h>
#include <stdio.h>
#include <string.h>

#include "../../include/softdemap.h"

#define MESSAGE "meter 7"
enum { PAYLOAD = 8 * (sizeof MESSAGE - 1) };

/* the message's bits, one a byte, the most significant of each character first */
static void message_bits(uint8_t bits[PAYLOAD])
{
    for (size_t i = 0; i < PAYLOAD; i++)
        bits[i] = (uint8_t)(MESSAGE[i / 8] >> (7 - i % 8) & 1);
}

/* -reach to reach, from a fixed sequence */
static int32_t noise(int32_t reach)
{
    static uint32_t state = 1;
    state = state * 1664525u + 1013904223u;
    return (int32_t)(state >> 16) % (2 * reach + 1) - reach;
}

static void print_heading(const char *modulation, const char *columns)
{
    printf("\"%s\" in %s: %d bits\n", MESSAGE, modulation, PAYLOAD);
    printf("A soft value above 0 leans to the bit 0, below 0 to the bit 1; its size says how firmly.\n\n%s\n", columns);
}

/* the hard bits of one symbol, and their soft values; the padding of the last symbol is not handed out, so it isn't printed */
static void print_bits(size_t symbol, size_t bits_a_symbol, const uint8_t *hard, const int16_t *soft)
{
    size_t first = symbol * bits_a_symbol, end = first + bits_a_symbol;
    printf("   ");
    for (size_t i = first; i < end; i++)
        printf("%c", i < PAYLOAD ? '0' + hard[i] : ' ');
    printf("  ");
    for (size_t i = first; i < end && i < PAYLOAD; i++)
        printf(" %6d", soft[i]);
    printf("\n");
}

/* `answer` of the call that read the frame, `refused` of one that was meant to fail */
static void print_end(uint64_t answer, const uint8_t *sent, const uint8_t *hard, uint64_t refused)
{
    printf("\nprobes: %" PRIu32 "\n", softdemap_probes_of(answer));
    printf("hard bits equal the bits sent: %s\n", memcmp(sent, hard, PAYLOAD) == 0 ? "yes" : "no");
    printf("with gain 5000: refusal %d at symbol %d\n", softdemap_refusal_of(refused), (int)softdemap_symbol_of(refused));
}

#endif
