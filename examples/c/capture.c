/* From a capture to soft values for a decoder: reads a file of binary32 numbers, in-phase and quadrature by turns, as one frame of 16-QAM,
 * and prints its soft values in binary32. capture.f32 holds "meter 7", 56 bits in 14 symbols, received with noise. */
#include <math.h>
#include <stdio.h>

#include "../../include/softdemap.h"

enum { BITS_I = 2, BITS_Q = 2, BITS = BITS_I + BITS_Q, MOST_SYMBOLS = SOFTDEMAP_MAX_SYMBOLS };

/* The numbers of the capture, of about 1 in size, become whole numbers at 1 / 2^12. A noise-free coordinate is -3, -1, 1 or 3 times the
 * channel's gain, 0.2, so the gain is 0.2 * 2^12 = 819 in those units. */
enum { SCALE = 12, GAIN = 819 };

/* Soft values are cost differences times WEIGHT / 2^SHIFT, held within -LIMIT to LIMIT, and handed out in steps of 1 / 2^SOFT_SCALE. */
enum { WEIGHT = 3, SHIFT = 13, LIMIT = 2047, SOFT_SCALE = 4 };

static float capture[2 * MOST_SYMBOLS];
static uint16_t gains[MOST_SYMBOLS];
static int32_t yi[MOST_SYMBOLS], yq[MOST_SYMBOLS];
static uint8_t hard[MOST_SYMBOLS * BITS];
static int16_t soft[MOST_SYMBOLS * BITS];
static uint8_t probe_index[MOST_SYMBOLS * (BITS + 2)];
static int64_t probe_cost[MOST_SYMBOLS * (BITS + 2)];
static float softs[MOST_SYMBOLS * BITS];

/* the count of a file's numbers, or 0 where it is not a capture of whole numbers that fits a frame */
static size_t read_capture(const char *name)
{
    FILE *file = fopen(name, "rb");
    if (file == NULL)
        return 0;
    size_t size = fread(capture, 1, sizeof capture, file);
    int whole = size % sizeof *capture == 0 && fgetc(file) == EOF;
    fclose(file);
    return whole ? size / sizeof *capture : 0;
}

/* The three calls. Each answers the refusal 0 where it serves; what refused is printed. */
static int read_frame(size_t numbers)
{
    size_t symbols = numbers / 2, payload = symbols * BITS;
    for (size_t s = 0; s < symbols; s++)
        gains[s] = GAIN;

    uint64_t answer = softdemap_samples_i32(SOFTDEMAP_QAM, SCALE, capture, numbers, yi, symbols, yq, symbols);
    if (answer != 0) {
        printf("the capture is refused by %d at sample %d\n", softdemap_refusal_of(answer), (int)softdemap_symbol_of(answer));
        return 0;
    }
    struct softdemap_header header = {.kind = SOFTDEMAP_QAM,
                                      .bits_i = BITS_I,
                                      .bits_q = BITS_Q,
                                      .payload = (uint16_t)payload,
                                      .weight = WEIGHT,
                                      .shift = SHIFT,
                                      .limit = LIMIT};
    struct softdemap_sizes sizes = {0};
    softdemap_sizes_of(&header, &sizes); /* what refuses the header refuses the frame too */
    struct softdemap_received received = {
        .gains = gains, .gains_len = symbols, .yi = yi, .yi_len = symbols, .yq = yq, .yq_len = symbols};
    struct softdemap_reading reading = {.hard = hard, .hard_len = payload, .soft = soft, .soft_len = payload,
                                        .probe_index = probe_index, .probe_index_len = sizes.probes,
                                        .probe_cost = probe_cost, .probe_cost_len = sizes.probes};
    answer = softdemap_read(&header, &received, &reading);
    if (softdemap_refusal_of(answer) != 0) {
        printf("the frame is refused by %d at symbol %d\n", softdemap_refusal_of(answer), (int)softdemap_symbol_of(answer));
        return 0;
    }
    uint32_t refusal = softdemap_softs_f32(SOFT_SCALE, soft, payload, softs, payload);
    if (refusal != 0) {
        printf("the soft values are refused by %d\n", (int)refusal);
        return 0;
    }
    return 1;
}

int main(int count, char **words)
{
    size_t numbers = count == 2 ? read_capture(words[1]) : 0;
    if (numbers == 0) {
        printf("usage: capture FILE, where FILE has 2 to %d binary32 numbers\n", 2 * MOST_SYMBOLS);
        return 1;
    }
    if (!read_frame(numbers))
        return 1;
    printf("symbol  in phase  quadrature   hard   soft values: above 0 leans to the bit 0, below 0 to the bit 1\n");
    for (size_t s = 0; s < numbers / 2; s++) {
        printf("%6zu %9.4f %11.4f   ", s, (double)capture[2 * s], (double)capture[2 * s + 1]);
        for (size_t i = s * BITS; i < (s + 1) * BITS; i++)
            printf("%d", hard[i]);
        printf("  ");
        for (size_t i = s * BITS; i < (s + 1) * BITS; i++)
            printf(" %9.4f", (double)softs[i]);
        printf("\n");
    }

    capture[numbers - 1] = NAN;
    printf("\nwith a NaN as the last number: ");
    read_frame(numbers);
    return 0;
}
