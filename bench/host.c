/* The cost of a call from the host, on a machine that is kept.
 *
 *     cc -O2 -Iinclude bench/host.c target/staticlib/libhost.a -o target/host-bench
 *     target/host-bench CALL ROUNDS
 *
 * CALL is addi or vmhraddshs (card_step on that word), run (card_run over a kernel of 100 words,
 * the sample five times), end (card_run at the end of the code) or new (card_new, stored).
 */
#include "card.h"
#include <stdio.h>
#include <stdlib.h>
#include <string.h>
#include <time.h>

enum { SAMPLE = 20, WORDS = 100, ADDI = 0, VMHRADDSHS = 14 };

/* samples/correction.words */
static const uint32_t sample[SAMPLE] = {0x38600000, 0x38800010, 0x38a00020, 0x38c00030, 0x38e00040,
                                        0x39000050, 0x39200060, 0x7c2018ce, 0x7c4020ce, 0x7c6028ce,
                                        0x7c8030ce, 0x7ca038ce, 0x7cc040ce, 0x7ce048ce, 0x110208e1,
                                        0x11080921, 0x11080961, 0x110809a1, 0x110809e1, 0x7d0019ce};

static uint32_t code[WORDS];
static uint8_t mem[112];
static struct card_machine m;

/* one call; the words that it completed */
static uint32_t call(char which)
{
    switch (which) {
    case 'a':
        return card_step(&m, code, WORDS, mem, sizeof mem, 0, ADDI).count;
    case 'v':
        return card_step(&m, code, WORDS, mem, sizeof mem, 0, VMHRADDSHS).count;
    case 'r':
        return card_run(&m, code, WORDS, mem, sizeof mem, 0, 0, 1000).count;
    case 'e':
        return card_run(&m, code, WORDS, mem, sizeof mem, 0, WORDS, 1000).count;
    default:
        m = card_new();
        return 0;
    }
}

int main(int argc, char **argv)
{
    long rounds = argc == 3 ? atol(argv[2]) : 0;
    unsigned long count = 0;
    clock_t begun;
    long i;
    if (rounds == 0)
        return 1;
    for (i = 0; i < WORDS; i += SAMPLE)
        memcpy(code + i, sample, sizeof sample);
    memset(mem, 0x11, sizeof mem);
    begun = clock();
    for (i = 0; i < rounds; i++)
        count += call(argv[1][0]);
    printf("%.1f ns a call; %lu words completed\n",
           (double)(clock() - begun) / CLOCKS_PER_SEC / (double)rounds * 1e9, count);
    return 0;
}
