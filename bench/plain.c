/* The whole card as a plain interpreter in C, against which bench/count holds the machine.
 *
 * It speaks the batch form of docs/TESTING.md. A vector is sixteen bytes, byte 0 leftmost, and an
 * instruction is a loop over its lanes, with the exact result in a wider number. SAT is kept, and
 * no mark of the lanes that were clipped. The instructions are named, and stand in the order of
 * document 01 with its numbers, those of the low six bits and the compares first.
 *
 * Where two forms are as plain, the one for which the compiler needs fewer instructions is taken:
 * a half is read as one number and its bytes exchanged, a case has its result in sixteen bytes of
 * its own, and what moves whole bytes copies them out of two vectors side by side.
 * The host has the least byte first, a conversion to a signed type takes the low bits, and a shift
 * of a negative number to the right is the floor, as on x86-64 with the usual compilers.
 */
#include <stdbool.h>
#include <stdint.h>
#include <stdio.h>
#include <string.h>

enum { WORDS_MAX = 16384, MEMORY_MAX = 65536 };

/* document 01's numbers from 0 to 7; DONE says that a word was completed */
enum answer { END, SPENT, MISPLACED, TOO_LONG, BEYOND, UNKNOWN, RESERVED, OUTSIDE, DONE };

struct machine {
    uint8_t v[32][16];
    uint32_t g[32];
    uint8_t nj, sat, cr6;
};

struct memory {
    uint8_t *bytes;
    uint32_t length, base;
};

struct report {
    enum answer answer;
    uint32_t count, place;
};

static uint16_t swapped(uint16_t x)
{
    return (uint16_t)(x << 8 | x >> 8);
}

/* lane i of a vector */
static uint32_t half(const uint8_t *v, int i)
{
    uint16_t x;
    memcpy(&x, v + 2 * i, 2);
    return swapped(x);
}

static uint32_t word(const uint8_t *v, int i)
{
    return half(v, 2 * i) << 16 | half(v, 2 * i + 1);
}

static void set_half(uint8_t *v, int i, uint32_t x)
{
    uint16_t y = swapped((uint16_t)x);
    memcpy(v + 2 * i, &y, 2);
}

static void set_word(uint8_t *v, int i, uint32_t x)
{
    set_half(v, 2 * i, x >> 16);
    set_half(v, 2 * i + 1, x);
}

/* the low bits of x in two's complement */
static int s8(uint32_t x)
{
    return (int8_t)x;
}

static int s16(uint32_t x)
{
    return (int16_t)x;
}

static int64_t s32(uint32_t x)
{
    return (int32_t)x;
}

static int half_s(const uint8_t *v, int i)
{
    return s16(half(v, i));
}

static int64_t word_s(const uint8_t *v, int i)
{
    return s32(word(v, i));
}

/* x moved to the nearer end of the range; sat is set where that alters it */
static int clip(int x, int low, int high, int *sat)
{
    int z = x < low ? low : x > high ? high : x;
    *sat |= z != x;
    return z;
}

static uint32_t clip_word(int64_t x, int64_t low, int64_t high, int *sat)
{
    int64_t z = x < low ? low : x > high ? high : x;
    *sat |= z != x;
    return (uint32_t)z;
}

#define CLIP_UB(x) (uint8_t)clip(x, 0, 255, &sat)
#define CLIP_UH(x) (uint32_t)clip(x, 0, 65535, &sat)
#define CLIP_UW(x) clip_word(x, 0, 4294967295, &sat)
#define CLIP_SB(x) (uint8_t)clip(x, -128, 127, &sat)
#define CLIP_SH(x) (uint32_t)clip(x, -32768, 32767, &sat)
#define CLIP_SW(x) clip_word(x, -2147483648, 2147483647, &sat)

/* the lanes of the result r by what is said of lane i; r then becomes register d */
#define LANES(n, ...)                   \
    {                                   \
        uint8_t r[16];                  \
        int sat = 0;                    \
        for (int i = 0; i < (n); i++) { \
            __VA_ARGS__;                \
        }                               \
        memcpy(d, r, 16);               \
        m->sat |= (uint8_t)sat;         \
    }

/* each lane z of the result from the lanes x of A and y of B */
#define BYTES(z) LANES(16, uint32_t x = a[i], y = b[i]; r[i] = (uint8_t)(z))
#define HALVES(z) LANES(8, uint32_t x = half(a, i), y = half(b, i); set_half(r, i, (uint32_t)(z)))
#define WORDS(z) LANES(4, uint32_t x = word(a, i), y = word(b, i); set_word(r, i, (uint32_t)(z)))
#define ONES(c) ((c) ? 4294967295u : 0)

static void pair(uint8_t *ab, const uint8_t *a, const uint8_t *b)
{
    memcpy(ab, a, 16);
    memcpy(ab + 16, b, 16);
}

/* With Rc, CR6 of the lanes that a compare has written: all true, 0, none true, 0. */
static void record(struct machine *m, uint32_t w, const uint8_t *d)
{
    int all = 1, none = 1;
    for (int i = 0; i < 16; i++) {
        all &= d[i] == 255;
        none &= d[i] == 0;
    }
    if (w & 1024)
        m->cr6 = all ? 8 : none ? 2 : 0;
}

/* Primary 4. Inside the loop of run it is some ten instructions a word faster than as a call. */
static inline __attribute__((always_inline)) enum answer vector_word(struct machine *m, uint32_t w)
{
    static const uint8_t zero[16];
    uint32_t D = w >> 21 & 31, A = w >> 16 & 31, B = w >> 11 & 31, C = w >> 6 & 31;
    const uint8_t *a = m->v[A], *b = m->v[B], *c = m->v[C];
    uint8_t *d = m->v[D];

    switch (w & 63) {
    case   32: /* vmhaddshs  */ LANES(8, set_half(r, i, CLIP_SH((half_s(a, i) * half_s(b, i) >> 15) + half_s(c, i)))); return DONE;
    case   33: /* vmhraddshs */ LANES(8, set_half(r, i, CLIP_SH(((half_s(a, i) * half_s(b, i) + 16384) >> 15) + half_s(c, i)))); return DONE;
    case   34: /* vmladduhm  */ LANES(8, set_half(r, i, half(a, i) * half(b, i) + half(c, i))); return DONE;
    case   36: /* vmsumubm   */ LANES(4, uint32_t s = word(c, i); for (int k = 4 * i; k < 4 * i + 4; k++) s += (uint32_t)(a[k] * b[k]); set_word(r, i, s)); return DONE;
    case   37: /* vmsummbm   */ LANES(4, uint32_t s = word(c, i); for (int k = 4 * i; k < 4 * i + 4; k++) s += (uint32_t)(s8(a[k]) * b[k]); set_word(r, i, s)); return DONE;
    case   38: /* vmsumuhm   */ LANES(4, set_word(r, i, word(c, i) + half(a, 2 * i) * half(b, 2 * i) + half(a, 2 * i + 1) * half(b, 2 * i + 1))); return DONE;
    case   39: /* vmsumuhs   */ LANES(4, set_word(r, i, CLIP_UW((int64_t)word(c, i) + half(a, 2 * i) * half(b, 2 * i) + half(a, 2 * i + 1) * half(b, 2 * i + 1)))); return DONE;
    case   40: /* vmsumshm   */ LANES(4, set_word(r, i, word(c, i) + (uint32_t)(half_s(a, 2 * i) * half_s(b, 2 * i)) + (uint32_t)(half_s(a, 2 * i + 1) * half_s(b, 2 * i + 1)))); return DONE;
    case   41: /* vmsumshs   */ LANES(4, set_word(r, i, CLIP_SW(word_s(c, i) + half_s(a, 2 * i) * half_s(b, 2 * i) + half_s(a, 2 * i + 1) * half_s(b, 2 * i + 1)))); return DONE;
    case   42: /* vsel       */ LANES(16, r[i] = (uint8_t)((a[i] & ~c[i]) | (b[i] & c[i]))); return DONE;
    case   43: /* vperm      */ { uint8_t ab[32]; pair(ab, a, b); LANES(16, r[i] = ab[c[i] & 31]); return DONE; }
    case   44: /* vsldoi     */ if (C & 16) return RESERVED; { uint8_t ab[32]; pair(ab, a, b); memcpy(d, ab + C, 16); return DONE; }
    case    6:
        switch (w & 1023) {
        case    6: /* vcmpequb   */ BYTES(ONES(x == y)); record(m, w, d); return DONE;
        case   70: /* vcmpequh   */ HALVES(ONES(x == y)); record(m, w, d); return DONE;
        case  134: /* vcmpequw   */ WORDS(ONES(x == y)); record(m, w, d); return DONE;
        case  518: /* vcmpgtub   */ BYTES(ONES(x > y)); record(m, w, d); return DONE;
        case  582: /* vcmpgtuh   */ HALVES(ONES(x > y)); record(m, w, d); return DONE;
        case  646: /* vcmpgtuw   */ WORDS(ONES(x > y)); record(m, w, d); return DONE;
        case  774: /* vcmpgtsb   */ BYTES(ONES(s8(x) > s8(y))); record(m, w, d); return DONE;
        case  838: /* vcmpgtsh   */ HALVES(ONES(s16(x) > s16(y))); record(m, w, d); return DONE;
        case  902: /* vcmpgtsw   */ WORDS(ONES(s32(x) > s32(y))); record(m, w, d); return DONE;
        default: return UNKNOWN;
        }
    }

    switch (w & 2047) {
    case    0: /* vaddubm    */ BYTES(x + y); return DONE;
    case   64: /* vadduhm    */ HALVES(x + y); return DONE;
    case  128: /* vadduwm    */ WORDS(x + y); return DONE;
    case  384: /* vaddcuw    */ WORDS(x > 0xffffffffu - y); return DONE;
    case  512: /* vaddubs    */ BYTES(CLIP_UB((int)(x + y))); return DONE;
    case  576: /* vadduhs    */ HALVES(CLIP_UH((int)(x + y))); return DONE;
    case  640: /* vadduws    */ WORDS(CLIP_UW((int64_t)x + y)); return DONE;
    case  768: /* vaddsbs    */ BYTES(CLIP_SB(s8(x) + s8(y))); return DONE;
    case  832: /* vaddshs    */ HALVES(CLIP_SH(s16(x) + s16(y))); return DONE;
    case  896: /* vaddsws    */ WORDS(CLIP_SW(s32(x) + s32(y))); return DONE;
    case 1024: /* vsububm    */ BYTES(x - y); return DONE;
    case 1088: /* vsubuhm    */ HALVES(x - y); return DONE;
    case 1152: /* vsubuwm    */ WORDS(x - y); return DONE;
    case 1408: /* vsubcuw    */ WORDS(x >= y); return DONE;
    case 1536: /* vsububs    */ BYTES(CLIP_UB((int)x - (int)y)); return DONE;
    case 1600: /* vsubuhs    */ HALVES(CLIP_UH((int)x - (int)y)); return DONE;
    case 1664: /* vsubuws    */ WORDS(CLIP_UW((int64_t)x - y)); return DONE;
    case 1792: /* vsubsbs    */ BYTES(CLIP_SB(s8(x) - s8(y))); return DONE;
    case 1856: /* vsubshs    */ HALVES(CLIP_SH(s16(x) - s16(y))); return DONE;
    case 1920: /* vsubsws    */ WORDS(CLIP_SW(s32(x) - s32(y))); return DONE;
    case    2: /* vmaxub     */ BYTES(x > y ? x : y); return DONE;
    case   66: /* vmaxuh     */ HALVES(x > y ? x : y); return DONE;
    case  130: /* vmaxuw     */ WORDS(x > y ? x : y); return DONE;
    case  258: /* vmaxsb     */ BYTES(s8(x) > s8(y) ? x : y); return DONE;
    case  322: /* vmaxsh     */ HALVES(s16(x) > s16(y) ? x : y); return DONE;
    case  386: /* vmaxsw     */ WORDS(s32(x) > s32(y) ? x : y); return DONE;
    case  514: /* vminub     */ BYTES(x < y ? x : y); return DONE;
    case  578: /* vminuh     */ HALVES(x < y ? x : y); return DONE;
    case  642: /* vminuw     */ WORDS(x < y ? x : y); return DONE;
    case  770: /* vminsb     */ BYTES(s8(x) < s8(y) ? x : y); return DONE;
    case  834: /* vminsh     */ HALVES(s16(x) < s16(y) ? x : y); return DONE;
    case  898: /* vminsw     */ WORDS(s32(x) < s32(y) ? x : y); return DONE;
    case 1026: /* vavgub     */ BYTES((x + y + 1) >> 1); return DONE;
    case 1090: /* vavguh     */ HALVES((x + y + 1) >> 1); return DONE;
    case 1154: /* vavguw     */ WORDS(((uint64_t)x + y + 1) >> 1); return DONE;
    case 1282: /* vavgsb     */ BYTES((s8(x) + s8(y) + 1) >> 1); return DONE;
    case 1346: /* vavgsh     */ HALVES((s16(x) + s16(y) + 1) >> 1); return DONE;
    case 1410: /* vavgsw     */ WORDS((s32(x) + s32(y) + 1) >> 1); return DONE;
    case    4: /* vrlb       */ BYTES(x << (y & 7) | x >> (8 - (y & 7))); return DONE;
    case   68: /* vrlh       */ HALVES(x << (y & 15) | x >> (16 - (y & 15))); return DONE;
    case  132: /* vrlw       */ WORDS(x << (y & 31) | (uint64_t)x >> (32 - (y & 31))); return DONE;
    case  260: /* vslb       */ BYTES(x << (y & 7)); return DONE;
    case  324: /* vslh       */ HALVES(x << (y & 15)); return DONE;
    case  388: /* vslw       */ WORDS(x << (y & 31)); return DONE;
    case  516: /* vsrb       */ BYTES(x >> (y & 7)); return DONE;
    case  580: /* vsrh       */ HALVES(x >> (y & 15)); return DONE;
    case  644: /* vsrw       */ WORDS(x >> (y & 31)); return DONE;
    case  772: /* vsrab      */ BYTES(s8(x) >> (y & 7)); return DONE;
    case  836: /* vsrah      */ HALVES(s16(x) >> (y & 15)); return DONE;
    case  900: /* vsraw      */ WORDS(s32(x) >> (y & 31)); return DONE;
    case  452: /* vsl        */ LANES(16, r[i] = (uint8_t)(a[i] << (b[15] & 7) | (i < 15 ? a[i + 1] : 0) >> (8 - (b[15] & 7)))); return DONE;
    case  708: /* vsr        */ LANES(16, r[i] = (uint8_t)(a[i] >> (b[15] & 7) | (i > 0 ? a[i - 1] : 0) << (8 - (b[15] & 7)))); return DONE;
    case 1036: /* vslo       */ { uint8_t ab[32]; pair(ab, a, zero); memcpy(d, ab + (b[15] >> 3 & 15), 16); return DONE; }
    case 1100: /* vsro       */ { uint8_t ab[32]; pair(ab, zero, a); memcpy(d, ab + 16 - (b[15] >> 3 & 15), 16); return DONE; }
    case 1028: /* vand       */ BYTES(x & y); return DONE;
    case 1092: /* vandc      */ BYTES(x & ~y); return DONE;
    case 1156: /* vor        */ BYTES(x | y); return DONE;
    case 1220: /* vxor       */ BYTES(x ^ y); return DONE;
    case 1284: /* vnor       */ BYTES(~(x | y)); return DONE;
    case 1540: /* mfvscr     */ if (A || B) return RESERVED; LANES(16, r[i] = i == 13 ? m->nj : i == 15 ? m->sat : 0); return DONE;
    case 1604: /* mtvscr     */ if (D || A) return RESERVED; m->nj = b[13] & 1; m->sat = b[15] & 1; return DONE;
    case    8: /* vmuloub    */ LANES(8, set_half(r, i, (uint32_t)(a[2 * i + 1] * b[2 * i + 1]))); return DONE;
    case   72: /* vmulouh    */ LANES(4, set_word(r, i, half(a, 2 * i + 1) * half(b, 2 * i + 1))); return DONE;
    case  264: /* vmulosb    */ LANES(8, set_half(r, i, (uint32_t)(s8(a[2 * i + 1]) * s8(b[2 * i + 1])))); return DONE;
    case  328: /* vmulosh    */ LANES(4, set_word(r, i, (uint32_t)(half_s(a, 2 * i + 1) * half_s(b, 2 * i + 1)))); return DONE;
    case  520: /* vmuleub    */ LANES(8, set_half(r, i, (uint32_t)(a[2 * i] * b[2 * i]))); return DONE;
    case  584: /* vmuleuh    */ LANES(4, set_word(r, i, half(a, 2 * i) * half(b, 2 * i))); return DONE;
    case  776: /* vmulesb    */ LANES(8, set_half(r, i, (uint32_t)(s8(a[2 * i]) * s8(b[2 * i])))); return DONE;
    case  840: /* vmulesh    */ LANES(4, set_word(r, i, (uint32_t)(half_s(a, 2 * i) * half_s(b, 2 * i)))); return DONE;
    case 1544: /* vsum4ubs   */ LANES(4, set_word(r, i, CLIP_UW((int64_t)word(b, i) + a[4 * i] + a[4 * i + 1] + a[4 * i + 2] + a[4 * i + 3]))); return DONE;
    case 1800: /* vsum4sbs   */ LANES(4, set_word(r, i, CLIP_SW(word_s(b, i) + s8(a[4 * i]) + s8(a[4 * i + 1]) + s8(a[4 * i + 2]) + s8(a[4 * i + 3])))); return DONE;
    case 1608: /* vsum4shs   */ LANES(4, set_word(r, i, CLIP_SW(word_s(b, i) + half_s(a, 2 * i) + half_s(a, 2 * i + 1)))); return DONE;
    case 1672: /* vsum2sws   */ LANES(4, set_word(r, i, i % 2 == 0 ? 0 : CLIP_SW(word_s(b, i) + word_s(a, i - 1) + word_s(a, i)))); return DONE;
    case 1928: /* vsumsws    */ LANES(4, set_word(r, i, i < 3 ? 0 : CLIP_SW(word_s(b, 3) + word_s(a, 0) + word_s(a, 1) + word_s(a, 2) + word_s(a, 3)))); return DONE;
    case   12: /* vmrghb     */ LANES(8, r[2 * i] = a[i], r[2 * i + 1] = b[i]); return DONE;
    case   76: /* vmrghh     */ LANES(4, set_half(r, 2 * i, half(a, i)), set_half(r, 2 * i + 1, half(b, i))); return DONE;
    case  140: /* vmrghw     */ LANES(2, set_word(r, 2 * i, word(a, i)), set_word(r, 2 * i + 1, word(b, i))); return DONE;
    case  268: /* vmrglb     */ LANES(8, r[2 * i] = a[8 + i], r[2 * i + 1] = b[8 + i]); return DONE;
    case  332: /* vmrglh     */ LANES(4, set_half(r, 2 * i, half(a, 4 + i)), set_half(r, 2 * i + 1, half(b, 4 + i))); return DONE;
    case  396: /* vmrglw     */ LANES(2, set_word(r, 2 * i, word(a, 2 + i)), set_word(r, 2 * i + 1, word(b, 2 + i))); return DONE;
    case  524: /* vspltb     */ if (A > 15) return RESERVED; LANES(16, r[i] = b[A]); return DONE;
    case  588: /* vsplth     */ if (A > 7) return RESERVED; LANES(8, set_half(r, i, half(b, (int)A))); return DONE;
    case  652: /* vspltw     */ if (A > 3) return RESERVED; LANES(4, set_word(r, i, word(b, (int)A))); return DONE;
    case  780: /* vspltisb   */ if (B) return RESERVED; LANES(16, r[i] = (uint8_t)((A ^ 16) - 16)); return DONE;
    case  844: /* vspltish   */ if (B) return RESERVED; LANES(8, set_half(r, i, (A ^ 16) - 16)); return DONE;
    case  908: /* vspltisw   */ if (B) return RESERVED; LANES(4, set_word(r, i, (A ^ 16) - 16)); return DONE;
    case   14: /* vpkuhum    */ LANES(8, r[i] = (uint8_t)half(a, i), r[8 + i] = (uint8_t)half(b, i)); return DONE;
    case   78: /* vpkuwum    */ LANES(4, set_half(r, i, word(a, i)), set_half(r, 4 + i, word(b, i))); return DONE;
    case  142: /* vpkuhus    */ LANES(8, r[i] = CLIP_UB((int)half(a, i)), r[8 + i] = CLIP_UB((int)half(b, i))); return DONE;
    case  206: /* vpkuwus    */ LANES(4, set_half(r, i, clip_word(word(a, i), 0, 65535, &sat)), set_half(r, 4 + i, clip_word(word(b, i), 0, 65535, &sat))); return DONE;
    case  270: /* vpkshus    */ LANES(8, r[i] = CLIP_UB(half_s(a, i)), r[8 + i] = CLIP_UB(half_s(b, i))); return DONE;
    case  334: /* vpkswus    */ LANES(4, set_half(r, i, CLIP_UH((int)word(a, i))), set_half(r, 4 + i, CLIP_UH((int)word(b, i)))); return DONE;
    case  398: /* vpkshss    */ LANES(8, r[i] = CLIP_SB(half_s(a, i)), r[8 + i] = CLIP_SB(half_s(b, i))); return DONE;
    case  462: /* vpkswss    */ LANES(4, set_half(r, i, CLIP_SH((int)word(a, i))), set_half(r, 4 + i, CLIP_SH((int)word(b, i)))); return DONE;
    case  526: /* vupkhsb    */ if (A) return RESERVED; LANES(8, set_half(r, i, (uint32_t)s8(b[i]))); return DONE;
    case  590: /* vupkhsh    */ if (A) return RESERVED; LANES(4, set_word(r, i, (uint32_t)half_s(b, i))); return DONE;
    case  654: /* vupklsb    */ if (A) return RESERVED; LANES(8, set_half(r, i, (uint32_t)s8(b[8 + i]))); return DONE;
    case  718: /* vupklsh    */ if (A) return RESERVED; LANES(4, set_word(r, i, (uint32_t)half_s(b, 4 + i))); return DONE;
    default: return UNKNOWN;
    }
}

/* The element of size bytes that an address lies in; null where it is outside memory. Base and
 * length are multiples of 16, so that an element that begins in memory is whole there. */
static uint8_t *at(const struct memory *mem, uint32_t address, uint32_t size)
{
    uint32_t place = (address & ~(size - 1)) - mem->base;
    return place < mem->length ? mem->bytes + place : NULL;
}

/* whether primary 31 has an instruction of that code */
static bool carried(uint32_t code)
{
    switch (code) {
    case 6: case 38: case 7: case 39: case 71: case 103: case 359:
    case 135: case 167: case 199: case 231: case 487: return true;
    default: return false;
    }
}

/* Primary 31. */
static enum answer memory_word(struct machine *m, uint32_t w, const struct memory *mem)
{
    uint32_t A = w >> 16 & 31, B = w >> 11 & 31;
    uint32_t address = (A ? m->g[A] : 0) + m->g[B];
    uint8_t *d = m->v[w >> 21 & 31], *p;

    if (w & 1)
        return carried(w >> 1 & 1023) ? RESERVED : UNKNOWN;
    switch (w >> 1 & 1023) {
    case 6:             /* lvsl        */ LANES(16, r[i] = (uint8_t)((address & 15) + (unsigned)i)); return DONE;
    case 38:            /* lvsr        */ LANES(16, r[i] = (uint8_t)(16 - (address & 15) + (unsigned)i)); return DONE;
    case 7:             /* lvebx       */ if (!(p = at(mem, address, 1))) return OUTSIDE; memset(d, 0, 16); memcpy(d + (address & 15), p, 1); return DONE;
    case 39:            /* lvehx       */ if (!(p = at(mem, address, 2))) return OUTSIDE; memset(d, 0, 16); memcpy(d + (address & 14), p, 2); return DONE;
    case 71:            /* lvewx       */ if (!(p = at(mem, address, 4))) return OUTSIDE; memset(d, 0, 16); memcpy(d + (address & 12), p, 4); return DONE;
    case 103: case 359: /* lvx, lvxl   */ if (!(p = at(mem, address, 16))) return OUTSIDE; memcpy(d, p, 16); return DONE;
    case 135:           /* stvebx      */ if (!(p = at(mem, address, 1))) return OUTSIDE; memcpy(p, d + (address & 15), 1); return DONE;
    case 167:           /* stvehx      */ if (!(p = at(mem, address, 2))) return OUTSIDE; memcpy(p, d + (address & 14), 2); return DONE;
    case 199:           /* stvewx      */ if (!(p = at(mem, address, 4))) return OUTSIDE; memcpy(p, d + (address & 12), 4); return DONE;
    case 231: case 487: /* stvx, stvxl */ if (!(p = at(mem, address, 16))) return OUTSIDE; memcpy(p, d, 16); return DONE;
    default: return UNKNOWN;
    }
}

/* Primary 14. */
static enum answer addi(struct machine *m, uint32_t w)
{
    uint32_t A = w >> 16 & 31;
    m->g[w >> 21 & 31] = (A ? m->g[A] : 0) + (uint32_t)s16(w);
    return DONE;
}

static struct report run(struct machine *m, const uint32_t *code, uint32_t length,
                         const struct memory *mem, uint32_t place, uint32_t allowance)
{
    uint32_t count = 0;
    enum answer answer;
    if (mem->base % 16 || mem->length % 16 || mem->length > MEMORY_MAX ||
        (uint64_t)mem->base + mem->length > 4294967296)
        return (struct report){MISPLACED, 0, place};
    if (length > WORDS_MAX)
        return (struct report){TOO_LONG, 0, place};
    if (place > length)
        return (struct report){BEYOND, 0, place};
    for (;; place++, count++) {
        if (place == length)
            return (struct report){END, count, place};
        if (count == allowance)
            return (struct report){SPENT, count, place};
        uint32_t w = code[place];
        switch (w >> 26) {
        case 4: answer = vector_word(m, w); break;
        case 14: answer = addi(m, w); break;
        case 31: answer = memory_word(m, w, mem); break;
        default: answer = UNKNOWN;
        }
        if (answer != DONE)
            return (struct report){answer, count, place};
    }
}

/* the batch form */
enum { STATE = 660, STATUS = 512, GENERAL = 528, CONDITION = 659 };
enum { NJ_AT = STATUS + 13, SAT_AT = STATUS + 15 };
enum { HEAD = 20, REPLY = 12 };

static uint8_t words[4 * (WORDS_MAX + 1)], bytes[MEMORY_MAX + 16];
static uint32_t code[WORDS_MAX + 1];

static struct machine machine_of(const uint8_t *state)
{
    struct machine m;
    memcpy(m.v, state, sizeof m.v);
    for (int i = 0; i < 32; i++)
        m.g[i] = word(state + GENERAL, i);
    m.nj = state[NJ_AT] & 1;
    m.sat = state[SAT_AT] & 1;
    m.cr6 = state[CONDITION] >> 4;
    return m;
}

static void state_of(const struct machine *m, uint8_t *state)
{
    memset(state, 0, STATE);
    memcpy(state, m->v, sizeof m->v);
    for (int i = 0; i < 32; i++)
        set_word(state + GENERAL, i, m->g[i]);
    state[NJ_AT] = m->nj;
    state[SAT_AT] = m->sat;
    state[CONDITION] = (uint8_t)(m->cr6 << 4);
}

/* one case and its reply; false where there is no whole case */
static bool served(void)
{
    uint8_t head[HEAD], reply[REPLY], state[STATE];
    if (fread(head, 1, HEAD, stdin) != HEAD)
        return false;
    uint32_t length = word(head, 0);
    struct memory mem = {bytes, word(head, 1), word(head, 2)};
    if (length > WORDS_MAX + 1 || mem.length > sizeof bytes ||
        fread(words, 4, length, stdin) != length ||
        fread(bytes, 1, mem.length, stdin) != mem.length ||
        fread(state, 1, STATE, stdin) != STATE)
        return false;
    for (int i = 0; i < (int)length; i++)
        code[i] = word(words, i);
    struct machine m = machine_of(state);
    struct report r = run(&m, code, length, &mem, word(head, 3), word(head, 4));
    set_word(reply, 0, r.answer);
    set_word(reply, 1, r.count);
    set_word(reply, 2, r.place);
    state_of(&m, state);
    fwrite(reply, 1, REPLY, stdout);
    fwrite(state, 1, STATE, stdout);
    fwrite(bytes, 1, mem.length, stdout);
    return fflush(stdout) == 0;
}

int main(void)
{
    while (served())
        ;
    return 0;
}
