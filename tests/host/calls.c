/* Calls of the archive from C: the layout that it has, a kernel in one run and in steps, every
 * answer, and uses at the edge. It prints what it finds, and tests/host/run compares that with
 * calls.expected.
 *
 *     calls samples/correction.bin samples/correction.mem samples/correction.expected
 */
#include "card.h"
#include <stdio.h>
#include <string.h>

static uint32_t code[CARD_WORDS_MAX + 1];
static uint8_t memory[CARD_MEMORY_MAX + 16];

/* ---- words: document 01, "Encodings" */

enum { NO_INSTRUCTION = 0, RESERVED_BIT = 1, RECORDED = 1024 };

static uint32_t fields(uint32_t primary, uint32_t d, uint32_t a, uint32_t rest)
{
    return primary << 26 | d << 21 | a << 16 | rest;
}

static uint32_t addi(uint32_t d, uint32_t a, int n)
{
    return fields(14, d, a, (uint32_t)n & 0xffff);
}

static uint32_t vspltisb(uint32_t d, int n)
{
    return fields(4, d, (uint32_t)n & 31, 780);
}

static uint32_t vspltish(uint32_t d, int n)
{
    return fields(4, d, (uint32_t)n & 31, 844);
}

static uint32_t vspltisw(uint32_t d, int n)
{
    return fields(4, d, (uint32_t)n & 31, 908);
}

static uint32_t mtvscr(uint32_t b)
{
    return fields(4, 0, 0, b << 11 | 1604);
}

static uint32_t vcmpequb(uint32_t d, uint32_t a, uint32_t b)
{
    return fields(4, d, a, b << 11 | 6);
}

static uint32_t lvx(uint32_t d, uint32_t a, uint32_t b)
{
    return fields(31, d, a, b << 11 | 103 << 1);
}

static uint32_t stvx(uint32_t d, uint32_t a, uint32_t b)
{
    return fields(31, d, a, b << 11 | 231 << 1);
}

/* ---- what is printed */

static void told(const char *what, struct card_report r)
{
    printf("%s: answer %u count %u place %u\n", what, r.answer, r.count, r.place);
}

/* whether two machines are the same, but for padding */
static bool same(const struct card_machine *a, const struct card_machine *b)
{
    return memcmp(a->v, b->v, sizeof a->v) == 0 && memcmp(a->g, b->g, sizeof a->g) == 0 &&
           a->nj == b->nj && a->sat == b->sat && a->cr6 == b->cr6;
}

static const char *named(struct card_report r, uint32_t wanted)
{
    return r.answer == wanted ? "by its name" : "NOT BY ITS NAME";
}

static const char *kept(bool is)
{
    return is ? "as before" : "CHANGED";
}

/* ---- the layout, by the bytes in which two runs differ */

/* room for a machine, and more */
union room {
    struct card_machine m;
    uint8_t bytes[1024];
};

static void run_in(union room *r, uint32_t first, uint32_t second)
{
    uint32_t two[2] = {first, second};
    memset(r->bytes, 0, sizeof r->m);
    memset(r->bytes + sizeof r->m, 0xa5, sizeof r->bytes - sizeof r->m);
    card_run(&r->m, two, 2, NULL, 0, 0, 0, 2);
}

static bool padding(size_t i)
{
    return offsetof(struct card_machine, cr6) < i && i < sizeof(struct card_machine);
}

/* the bytes in which a run of words a and b leaves something else than one of words a and c */
static void differ(const char *what, size_t from, size_t to, uint32_t a, uint32_t b, uint32_t c)
{
    union room x, y;
    size_t first = 0, last = 0, i;
    run_in(&x, a, b);
    run_in(&y, a, c);
    for (i = sizeof x.bytes; i-- > 0;)
        if (!padding(i) && x.bytes[i] != y.bytes[i]) {
            last = last > i ? last : i;
            first = i;
        }
    printf("%s: bytes %u to %u, the first is %02x; %s\n", what, (unsigned)first, (unsigned)last,
           y.bytes[first],
           first == from && last == to ? "as the header has it" : "NOT AS THE HEADER HAS IT");
}

static void layout(void)
{
    size_t v = offsetof(struct card_machine, v);
    size_t g = offsetof(struct card_machine, g);
    size_t nj = offsetof(struct card_machine, nj);
    size_t sat = offsetof(struct card_machine, sat);
    size_t cr6 = offsetof(struct card_machine, cr6);
    uint32_t none = addi(1, 1, 0);
    uint32_t numbers[3];
    struct card_machine m = card_new(), zero;
    struct card_report r;
    union room x;
    size_t i, beyond = 0;

    printf("machine %u bytes, report %u\n", (unsigned)sizeof m, (unsigned)sizeof r);
    differ("vector 0", v, v + 15, none, none, vspltisb(0, -2));
    differ("vector 31", v + 496, v + 511, none, none, vspltisb(31, -2));
    differ("general register 0", g, g + 3, none, none, addi(0, 0, -2));
    differ("general register 31", g + 124, g + 127, none, none, addi(31, 0, -2));
    differ("NJ and SAT", nj, sat, vspltish(1, 1), none, mtvscr(1));
    differ("SAT", sat, sat, vspltisw(1, 1), none, mtvscr(1));
    differ("CR6", cr6, cr6, none, vcmpequb(1, 0, 0), vcmpequb(1, 0, 0) | RECORDED);
    run_in(&x, vspltisb(31, -1), addi(31, 0, -1));
    for (i = sizeof m; i < sizeof x.bytes; i++)
        beyond += x.bytes[i] != 0xa5;
    printf("bytes written beyond the machine: %u\n", (unsigned)beyond);
    memset(&zero, 0, sizeof zero);
    printf("a new machine %s zero\n", same(&m, &zero) ? "is" : "IS NOT");

    code[0] = code[3] = NO_INSTRUCTION;
    code[1] = code[2] = none;
    r = card_run(&m, code, 4, NULL, 0, 0, 1, 9);
    memcpy(numbers, &r, sizeof numbers);
    printf("the numbers of a report: %u %u %u\n", numbers[0], numbers[1], numbers[2]);
}

/* ---- a kernel, in one run, in two, in steps, and over a memory at an odd address */

static size_t read_file(const char *name, uint8_t *to, size_t room)
{
    FILE *f = fopen(name, "rb");
    size_t n = f == NULL ? 0 : fread(to, 1, room, f);
    if (f != NULL)
        fclose(f);
    return n;
}

static void compared(bool equal)
{
    printf("  machine and memory are %s\n", equal ? "those of one run" : "OTHERS");
}

static bool sample(char **names)
{
    static uint8_t file[256], start[256], wanted[256];
    size_t words = read_file(names[0], file, sizeof file) / 4;
    size_t bytes = read_file(names[1], start, sizeof start);
    struct card_machine m = card_new(), again = card_new(), other = card_new();
    struct card_report r;
    size_t i;
    if (words == 0 || bytes == 0 || read_file(names[2], wanted, sizeof wanted) != bytes)
        return false;
    for (i = 0; i < words; i++) {
        const uint8_t *b = file + 4 * i;
        code[i] = (uint32_t)b[0] << 24 | (uint32_t)b[1] << 16 | (uint32_t)b[2] << 8 | b[3];
    }

    memcpy(memory, start, bytes);
    told("the sample", card_run(&m, code, words, memory, bytes, 0, 0, 1000));
    printf("  its memory is %s\n", memcmp(memory, wanted, bytes) == 0 ? "as expected" : "OTHER");

    memcpy(memory, start, bytes);
    r = card_run(&again, code, words, memory, bytes, 0, 0, 7);
    told("seven words of it", r);
    told("and the rest", card_run(&again, code, words, memory, bytes, 0, r.place, 1000));
    compared(same(&m, &again) && memcmp(memory, wanted, bytes) == 0);

    memcpy(memory, start, bytes);
    again = card_new();
    r.place = 0;
    for (i = 0; i < words; i++) {
        r = card_step(&again, code, words, memory, bytes, 0, r.place);
        card_step(&other, code, words, NULL, 0, 0, (uint32_t)i);
    }
    told("the last of its steps, between those of another machine", r);
    compared(same(&m, &again) && memcmp(memory, wanted, bytes) == 0);

    memcpy(memory + 1, start, bytes);
    again = card_new();
    r = card_run(&again, code, words, memory + 1, bytes, 0, 0, 1000);
    told("its memory at an odd address", r);
    compared(same(&m, &again) && memcmp(memory + 1, wanted, bytes) == 0);
    return true;
}

/* ---- the answers */

/* a run that is refused before anything */
static void refused(const char *what, uint32_t wanted, size_t words, size_t bytes, uint32_t base,
                    uint32_t place)
{
    static uint8_t before[sizeof memory];
    struct card_machine m = card_new(), start;
    struct card_report r;
    memset(m.v, 0x5a, sizeof m.v);
    m.sat = true;
    start = m;
    memcpy(before, memory, sizeof memory);
    r = card_run(&m, code, words, memory, bytes, base, place, 5);
    told(what, r);
    printf("  %s; machine and memory are %s\n", named(r, wanted),
           kept(same(&m, &start) && memcmp(before, memory, sizeof memory) == 0));
}

/* a run of two words that add to r1, and one more */
static void ends(const char *what, uint32_t wanted, uint32_t last, uint32_t allowance)
{
    struct card_machine m = card_new();
    struct card_report r;
    code[0] = code[1] = addi(1, 1, 16);
    code[2] = last;
    r = card_run(&m, code, 3, memory, 32, 16, 0, allowance);
    told(what, r);
    printf("  %s; r1 is %u\n", named(r, wanted), m.g[1]);
}

static void answers(void)
{
    struct card_machine m = card_new();
    size_t i;
    for (i = 0; i <= CARD_WORDS_MAX; i++)
        code[i] = addi(1, 1, 1);
    memset(memory, 0x33, sizeof memory);
    told("the most words and bytes",
         card_run(&m, code, CARD_WORDS_MAX, memory, CARD_MEMORY_MAX, 0xffff0000, 0, 0xffffffff));
    printf("  r1 is %u\n", m.g[1]);
    refused("base 8", CARD_MISPLACED, 1, 16, 8, 0);
    refused("8 bytes", CARD_MISPLACED, 1, 8, 0, 0);
    refused("65,552 bytes", CARD_MISPLACED, 1, CARD_MEMORY_MAX + 16, 0, 0);
    refused("beyond the last address", CARD_MISPLACED, 1, 32, 0xfffffff0, 0);
    refused("16,385 words", CARD_LONG_CODE, CARD_WORDS_MAX + 1, 16, 0, 0);
    refused("place 2 of 1", CARD_BAD_START, 1, 16, 0, 2);
    ends("all words", CARD_DONE, addi(1, 1, 16), 9);
    ends("the allowance used up at the end", CARD_DONE, addi(1, 1, 16), 3);
    ends("the allowance used up before it", CARD_SPENT, addi(1, 1, 16), 2);
    ends("allowance 0", CARD_SPENT, addi(1, 1, 16), 0);
    ends("a word that is no instruction", CARD_NO_INSTRUCTION, NO_INSTRUCTION, 9);
    ends("a reserved bit", CARD_RESERVED, lvx(1, 0, 1) | RESERVED_BIT, 9);
    ends("an address beyond the memory", CARD_OUTSIDE, lvx(1, 1, 1), 9);
    ends("an address in it", CARD_DONE, lvx(1, 0, 1), 9);
}

/* ---- uses at the edge */

static void edges(void)
{
    struct card_machine m = card_new(), start = card_new();
    uint32_t word = addi(2, 0, 7);
    memset(memory, 0x33, 16);
    told("no code and no memory, both null", card_run(&m, NULL, 0, NULL, 0, 0, 0, 5));
    told("the same, a step", card_step(&m, NULL, 0, NULL, 0, 0, 0));
    told("the same, place 1", card_run(&m, NULL, 0, NULL, 0, 0, 1, 5));
    told("no memory, null, at the last line", card_run(&m, NULL, 0, NULL, 0, 0xfffffff0, 0, 5));
    told("no code, null, and a memory", card_run(&m, NULL, 0, memory, 16, 0, 0, 5));
    told("lengths 0, and pointers", card_run(&m, &word, 0, memory, 0, 0, 0, 5));
    printf("  the machine is %s\n", kept(same(&m, &start)));
    told("a word, and no memory, null", card_run(&m, &word, 1, NULL, 0, 0, 0, 5));
    printf("  r2 is %u\n", m.g[2]);
    word = stvx(0, 0, 0);
    told("a store, and no memory, null", card_run(&m, &word, 1, NULL, 0, 0, 0, 5));
    told("a store, and length 0", card_run(&m, &word, 1, memory, 0, 0, 0, 5));
    printf("  the byte at the pointer is %02x\n", memory[0]);
    m.cr6 = 0xff;
    word = addi(2, 0, 8);
    told("CR6 above 15", card_run(&m, &word, 1, NULL, 0, 0, 0, 5));
    printf("  CR6 is %02x\n", m.cr6);
}

int main(int argc, char **argv)
{
    layout();
    if (argc != 4 || !sample(argv + 1)) {
        fprintf(stderr, "usage: calls KERNEL MEMORY EXPECTED\n");
        return 1;
    }
    answers();
    edges();
    return 0;
}
