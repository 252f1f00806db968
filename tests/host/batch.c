/* Answers the cases of tests/compare, in the batch form of docs/TESTING.md, by calls of the
 * archive: by card_run, and where the allowance is from 1 to 64 by card_step, over and over. */
#include "card.h"
#include <stdio.h>
#include <string.h>

enum { STATE = 660, STATUS = 512, GENERAL = 528, CONDITION = 659, STEPS_MAX = 64 };
enum { NJ_AT = STATUS + 13, SAT_AT = STATUS + 15 };
enum { HEAD = 20, ANSWER = 12 };

static uint8_t words[4 * (CARD_WORDS_MAX + 1)];
static uint32_t code[CARD_WORDS_MAX + 1];
static uint8_t memory[CARD_MEMORY_MAX + 16];

static uint32_t word(const uint8_t *b)
{
    return (uint32_t)b[0] << 24 | (uint32_t)b[1] << 16 | (uint32_t)b[2] << 8 | b[3];
}

static void set_word(uint8_t *b, uint32_t n)
{
    b[0] = (uint8_t)(n >> 24);
    b[1] = (uint8_t)(n >> 16);
    b[2] = (uint8_t)(n >> 8);
    b[3] = (uint8_t)n;
}

static struct card_machine machine_of(const uint8_t *state)
{
    struct card_machine m = card_new();
    size_t i;
    memcpy(m.v, state, sizeof m.v);
    for (i = 0; i < 32; i++)
        m.g[i] = word(state + GENERAL + 4 * i);
    m.nj = state[NJ_AT] & 1;
    m.sat = state[SAT_AT] & 1;
    m.cr6 = state[CONDITION] >> 4;
    return m;
}

static void state_of(const struct card_machine *m, uint8_t *state)
{
    size_t i;
    memset(state, 0, STATE);
    memcpy(state, m->v, sizeof m->v);
    for (i = 0; i < 32; i++)
        set_word(state + GENERAL + 4 * i, m->g[i]);
    state[NJ_AT] = m->nj;
    state[SAT_AT] = m->sat;
    state[CONDITION] = (uint8_t)(m->cr6 << 4);
}

static struct card_report answered(struct card_machine *m, size_t c, size_t b, uint32_t base,
                                   uint32_t place, uint32_t allowance)
{
    struct card_report r;
    uint32_t count = 0;
    if (allowance == 0 || allowance > STEPS_MAX)
        return card_run(m, code, c, memory, b, base, place, allowance);
    do {
        r = card_step(m, code, c, memory, b, base, place);
        place = r.place;
        count += r.count;
    } while (r.answer == CARD_SPENT && --allowance > 0);
    r.count = count;
    return r;
}

/* one case and its reply; false where there is no whole case */
static bool served(void)
{
    uint8_t head[HEAD], reply[ANSWER], state[STATE];
    struct card_machine m;
    struct card_report r;
    size_t c, b, i;
    if (fread(head, 1, HEAD, stdin) != HEAD)
        return false;
    c = word(head);
    b = word(head + 4);
    if (c > CARD_WORDS_MAX + 1 || b > sizeof memory || fread(words, 4, c, stdin) != c ||
        fread(memory, 1, b, stdin) != b || fread(state, 1, STATE, stdin) != STATE)
        return false;
    for (i = 0; i < c; i++)
        code[i] = word(words + 4 * i);
    m = machine_of(state);
    r = answered(&m, c, b, word(head + 8), word(head + 12), word(head + 16));
    set_word(reply, r.answer);
    set_word(reply + 4, r.count);
    set_word(reply + 8, r.place);
    state_of(&m, state);
    fwrite(reply, 1, ANSWER, stdout);
    fwrite(state, 1, STATE, stdout);
    fwrite(memory, 1, b, stdout);
    return fflush(stdout) == 0;
}

int main(void)
{
    while (served())
        ;
    return 0;
}
