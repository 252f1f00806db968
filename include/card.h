/*
 * The card: an emulator of an AltiVec machine, for hosts in C11 or C++11 on x86-64 Linux.
 *
 * `tools/archive` makes the archive. Of the C library it needs memcpy and memset alone:
 *
 *     cc -O2 -Iinclude host.c target/staticlib/libhost.a -o host
 *
 * The host keeps a machine, and lends it to each call, with the code and the memory:
 *
 *     struct card_machine m = card_new();
 *     struct card_report r = card_run(&m, code, words, mem, bytes, 0, 0, 100000);
 *     if (r.answer == CARD_DONE) ..    all words were run: mem and m have what they left
 *     if (m.sat) ..                    a lane was clipped; SAT stays on until it is turned off
 *
 * CODE is `words` numbers of 32 bits: 0x7c2018ce is lvx v1, 0, r3. In a kernel file a word has its
 * most significant byte first, and the host puts it together. Code is read and never written.
 *
 * MEMORY is `bytes` bytes, of which the first stands at the address `base`. Base and length are
 * multiples of 16, the length is at most CARD_MEMORY_MAX, and base + bytes at most 2^32, or the
 * answer is CARD_MISPLACED. Halves and words in memory have their most significant byte first.
 *
 * A RUN begins with the word at `place` and completes at most `allowance` words; card_step is
 * card_run with allowance 1. The report has the answer, the number of words completed and the place
 * of the next word. After CARD_SPENT a call with that place goes on: the two leave what one call
 * with the sum of the allowances leaves. After CARD_MISPLACED, CARD_LONG_CODE and CARD_BAD_START
 * nothing was touched; the count is 0 and the place is the one that was given. After
 * CARD_NO_INSTRUCTION, CARD_RESERVED and CARD_OUTSIDE the words before the refused one have done
 * their work, and the place is that word's.
 *
 * Every call returns, with one of the eight answers, whatever the machine, the code, the memory and
 * the numbers are, and what it leaves is proved (docs/CLAIMS.md, "The host's side"). The caller
 * sees to what C does not check:
 *
 *   - m points to a machine that was filled, by card_new or by the host, and not null. Its nj and
 *     sat are true or false, and no other byte.
 *   - code points to `words` words at a multiple of 4, and mem to `bytes` bytes at any address.
 *     Where the length is 0 the pointer is not looked at, and may be null.
 *   - machine, code and memory do not overlap. During the call nothing else writes to them, or
 *     reads the machine or the memory.
 *
 * THREADS may call at the same time, each on a machine and a memory of its own; code they may
 * share. A call allocates nothing, and the archive has no variable: all that a call reads or
 * writes is what it is lent, and less than 4 KiB of its own stack.
 */
#ifndef CARD_H
#define CARD_H

#include <stdbool.h>
#include <stddef.h>
#include <stdint.h>

#ifdef __cplusplus
extern "C" {
#define CARD_FIXED(fact) static_assert(fact, #fact)
#else
#define CARD_FIXED(fact) _Static_assert(fact, #fact)
#endif

/* Vector n is the bytes 16 n to 16 n + 15 of v, its byte 0 first. g has the general registers. CR6
 * is a number of four bits: 8 where all lanes of the last recorded compare were true, 2 where none
 * was. A host may read and set every field between two calls. A byte of padding follows cr6, which
 * means nothing and may change. */
struct card_machine {
    uint8_t v[512];
    uint32_t g[32];
    bool nj;
    bool sat;
    uint8_t cr6;
};

/* How a run ended: one of the answers below; the words completed; the place of the next word. */
struct card_report {
    uint32_t answer;
    uint32_t count;
    uint32_t place;
};

enum {
    CARD_DONE = 0,           /* the place is the end of the code */
    CARD_SPENT = 1,          /* the allowance is used up, and the place is before the end */
    CARD_MISPLACED = 2,      /* the memory is wrongly placed */
    CARD_LONG_CODE = 3,      /* more than CARD_WORDS_MAX words */
    CARD_BAD_START = 4,      /* the place is beyond the end of the code */
    CARD_NO_INSTRUCTION = 5, /* the word is none of the 132 instructions */
    CARD_RESERVED = 6,       /* the word is one of them, with a reserved bit set */
    CARD_OUTSIDE = 7         /* the word's address is outside the memory */
};

enum {
    CARD_WORDS_MAX = 16384, /* words of code */
    CARD_MEMORY_MAX = 65536 /* bytes of memory */
};

/* The layout is fixed. */
CARD_FIXED(sizeof(struct card_machine) == 644);
CARD_FIXED(offsetof(struct card_machine, v) == 0);
CARD_FIXED(offsetof(struct card_machine, g) == 512);
CARD_FIXED(offsetof(struct card_machine, nj) == 640);
CARD_FIXED(offsetof(struct card_machine, sat) == 641);
CARD_FIXED(offsetof(struct card_machine, cr6) == 642);
CARD_FIXED(sizeof(struct card_report) == 12);
CARD_FIXED(offsetof(struct card_report, answer) == 0);
CARD_FIXED(offsetof(struct card_report, count) == 4);
CARD_FIXED(offsetof(struct card_report, place) == 8);

/* A machine with all registers and bits zero. */
struct card_machine card_new(void);

/* Runs the code from a place on, as far as the allowance goes. */
struct card_report card_run(struct card_machine *m, const uint32_t *code, size_t words,
                            uint8_t *mem, size_t bytes, uint32_t base, uint32_t place,
                            uint32_t allowance);

/* Runs the one word at the place. */
struct card_report card_step(struct card_machine *m, const uint32_t *code, size_t words,
                             uint8_t *mem, size_t bytes, uint32_t base, uint32_t place);

#undef CARD_FIXED
#ifdef __cplusplus
}
#endif
#endif
