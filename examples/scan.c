/* A scan through the card: the kernel is run over 64 lines of eight samples, on one machine, with
 * the memory filled anew for each line. Of each line it prints whether SAT came on, the residual
 * and the corrected samples. The residual is the greatest distance of a sample from the polynomial,
 * computed in floating point with the same coefficients, in units of the last place of a sample.
 * The last eight lines have an offset for which the range has no room in the end.
 *
 *     scan samples/correction.bin samples/correction.mem
 */
#include "card.h"
#include <stdio.h>
#include <string.h>

enum { LINES = 64, LANES = 8, LINE = 16, OFFSET_FROM = 56, OFFSET = 4096 };

static uint8_t file[4 * CARD_WORDS_MAX];
static uint32_t code[CARD_WORDS_MAX];

/* a sample of 16 bits in the card's order */
static int half(const uint8_t *p)
{
    return (int16_t)(p[0] << 8 | p[1]);
}

static void set_half(uint8_t *p, int n)
{
    p[0] = (uint8_t)(n >> 8);
    p[1] = (uint8_t)n;
}

/* the bytes of a file, as many as there is room for */
static size_t read_file(const char *name, uint8_t *to, size_t room)
{
    FILE *f = fopen(name, "rb");
    size_t n;
    if (f == NULL)
        return 0;
    n = fread(to, 1, room, f);
    fclose(f);
    return n;
}

static size_t read_kernel(const char *name)
{
    size_t words = read_file(name, file, sizeof file) / 4;
    size_t i;
    for (i = 0; i < words; i++) {
        const uint8_t *b = file + 4 * i;
        code[i] = (uint32_t)b[0] << 24 | (uint32_t)b[1] << 16 | (uint32_t)b[2] << 8 | b[3];
    }
    return words;
}

/* the polynomial at a sample; line k of the memory has the k-th coefficient in each lane, the
 * highest first */
static double polynomial(const uint8_t *mem, int sample)
{
    double x = sample / 32768.0;
    double p = 0;
    int k;
    for (k = 1; k <= 6; k++)
        p = p * x + half(mem + LINE * k) / 32768.0;
    return p * 32768.0;
}

int main(int argc, char **argv)
{
    uint8_t start[7 * LINE], mem[7 * LINE];
    struct card_machine m = card_new();
    size_t words = argc == 3 ? read_kernel(argv[1]) : 0;
    double worst = 0;
    int clipped = 0;
    int line, lane;

    if (words == 0 || read_file(argv[2], start, sizeof start) != sizeof start) {
        fprintf(stderr, "usage: scan KERNEL MEMORY\n");
        return 1;
    }
    for (line = 0; line < LINES; line++) {
        double residual = 0;
        struct card_report r;
        memcpy(mem, start, sizeof mem);
        for (lane = 0; lane < LANES; lane++) {
            set_half(mem + 2 * lane, (LANES * line + lane) * 64);
            if (line >= OFFSET_FROM)
                set_half(mem + 6 * LINE + 2 * lane, OFFSET);
        }
        m.sat = false;
        r = card_run(&m, code, words, mem, sizeof mem, 0, 0, 1000);
        if (r.answer != CARD_DONE) {
            fprintf(stderr, "line %d: answer %u at word %u\n", line, (unsigned)r.answer,
                    (unsigned)r.place);
            return 1;
        }
        for (lane = 0; lane < LANES; lane++) {
            double off = half(mem + 2 * lane) - polynomial(mem, (LANES * line + lane) * 64);
            if (off < 0)
                off = -off;
            if (off > residual)
                residual = off;
        }
        printf("line %2d sat %d residual %.2f:", line, m.sat, residual);
        for (lane = 0; lane < LANES; lane++)
            printf(" %d", half(mem + 2 * lane));
        printf("\n");
        if (m.sat)
            clipped++;
        else if (residual > worst)
            worst = residual;
    }
    printf("%d lines, %d with a clipped lane; residual of the others at most %.2f\n", LINES,
           clipped, worst);
    return 0;
}
