/* Writes and reads polygons in every floating-point mode that a caller may have set: each way of rounding, with tiny numbers kept
 * and with them taken for zero. Answers and bytes are the same in all of them, and no flag of an inexact or a wrong operation is
 * raised. */
#include <stdio.h>
#include <string.h>

#include "undrwyth.h"

#if defined __aarch64__
enum { ROUNDING = 22, FLUSH = 1 << 24, FLAGS = 0x9f };

static void set_mode(unsigned rounding, unsigned flush) {
    __asm__ volatile("msr fpcr, %0" : : "r"((unsigned long)(rounding << ROUNDING | flush)));
}
static void clear_flags(void) { __asm__ volatile("msr fpsr, %0" : : "r"(0ul)); }
static unsigned flags(void) {
    unsigned long status;
    __asm__ volatile("mrs %0, fpsr" : "=r"(status));
    return (unsigned)status & FLAGS;
}
#elif defined __x86_64__
#include <xmmintrin.h>
enum { ROUNDING = 13, FLUSH = 0x8040, FLAGS = 0x3f, MASKS = 0x1f80 };

static void set_mode(unsigned rounding, unsigned flush) { _mm_setcsr(MASKS | rounding << ROUNDING | flush); }
static void clear_flags(void) { _mm_setcsr(_mm_getcsr() & ~(unsigned)FLAGS); }
static unsigned flags(void) { return _mm_getcsr() & FLAGS; }
#else
#error "how this processor's floating-point mode is set is not said here"
#endif

enum { POINTS = 5, BYTES = UNDRWYTH_POLYGON_HEADER_BYTES + POINTS * UNDRWYTH_POINT_BYTES, FAR = 16384 };

static const uint8_t room[] = {0, 1, 2, 3};
static const char *mode;
static int failures = 0;

static void check(int holds, const char *what, uint64_t of) {
    if (!holds) {
        printf("modes: %s: not so: %s (%llx)\n", mode, what, (unsigned long long)of);
        failures++;
    }
}

static void put(uint8_t *at, uint64_t number, int bytes, int little) {
    for (int i = 0; i < bytes; i++) {
        at[little ? i : bytes - 1 - i] = (uint8_t)(number >> 8 * i);
    }
}

/* The bits of 600 times k, made of whole numbers alone. */
static uint64_t bits_of(int32_t k) {
    uint64_t sign = k < 0 ? 1 : 0, size = 600 * (uint64_t)(k < 0 ? -k : k), exponent = 1075;
    if (size == 0) {
        return 0;
    }
    while (size < (uint64_t)1 << 52) {
        size *= 2;
        exponent--;
    }
    return sign << 63 | exponent << 52 | (size & (((uint64_t)1 << 52) - 1));
}

/* The panel with its lower left corner at (x,y), and some other bits as the x of the points on its right. */
static void draw(uint8_t *file, int32_t x, int32_t y, uint64_t right, int little) {
    const uint64_t xs[POINTS] = {bits_of(x), right, right, bits_of(x), bits_of(x)};
    const uint64_t ys[POINTS] = {bits_of(y), bits_of(y), bits_of(y + 1), bits_of(y + 1), bits_of(y)};
    file[0] = (uint8_t)little;
    put(file + 1, 3, 4, little);
    put(file + 5, 1, 4, little);
    put(file + 9, POINTS, 4, little);
    for (int i = 0; i < POINTS; i++) {
        put(file + UNDRWYTH_POLYGON_HEADER_BYTES + 16 * i, xs[i], 8, little);
        put(file + UNDRWYTH_POLYGON_HEADER_BYTES + 16 * i + 8, ys[i], 8, little);
    }
}

/* A panel out, and in again from either byte order. */
static void out_and_in(int32_t x, int32_t y) {
    uint8_t file[BYTES], drawn[BYTES], chain[4];
    uint32_t counted[UNDRWYTH_POLYGON_ANSWER_WORDS], answer[UNDRWYTH_CHAIN_ANSWER_WORDS];
    draw(drawn, x, y, bits_of(x + 1), 1);
    clear_flags();
    int written = undrwyth_polygon_of_room(x, y, room, 4, file, BYTES, counted) == UNDRWYTH_ACCEPTED;
    check(written && memcmp(file, drawn, BYTES) == 0, "a room is written", bits_of(x));
    for (int little = 0; little < 2; little++) {
        const uint32_t given[UNDRWYTH_CHAIN_ANSWER_WORDS] = {0, 0, 4, (uint32_t)x, (uint32_t)y};
        draw(drawn, x, y, bits_of(x + 1), little);
        memset(chain, 7, sizeof chain);
        int read = undrwyth_chain_of_polygon(drawn, BYTES, chain, 4, answer) == UNDRWYTH_ACCEPTED;
        check(read && memcmp(answer, given, sizeof given) == 0 && memcmp(chain, room, 4) == 0, "it is read back", bits_of(x));
    }
    check(flags() == 0, "no flag is raised", bits_of(x));
}

/* A panel at (-1,0) with these bits for the 0 on its right. */
static void in(uint64_t right, uint32_t result) {
    for (int little = 0; little < 2; little++) {
        uint8_t drawn[BYTES], chain[4];
        uint32_t answer[UNDRWYTH_CHAIN_ANSWER_WORDS];
        draw(drawn, -1, 0, right, little);
        clear_flags();
        check(undrwyth_chain_of_polygon(drawn, BYTES, chain, 4, answer) == result, "its result", right);
        check(flags() == 0, "no flag is raised", right);
    }
}

int main(void) {
    static const char *const modes[] = {"nearest", "second", "third", "toward zero", "nearest, flushed", "second, flushed", "third, flushed", "toward zero, flushed"};
    static const uint64_t bad[] = {
        1, 0x8000000000000001, 0xfffffffffffff, 0x10000000000000, 0x8010000000000000, /* tiny: up to 2^-1022 */
        0x3ff0000000000000, 0x4082bfffffffffff, 0x4082c00000000001, 0x4082c80000000000, /* 1; beside 600; 601 */
        0x4172c00000000001, 0x4172c00960000000, /* past 600 * 32,768, by a little and by a panel */
        0x7fefffffffffffff, 0x7ff0000000000000, 0xfff0000000000000, /* the greatest, and both infinities */
        0x7ff0000000000001, 0x7ff8000000000000, 0xffffffffffffffff, /* no numbers, the first a signalling one */
    };
    for (unsigned i = 0; i < 8; i++) {
        mode = modes[i];
        set_mode(i % 4, i < 4 ? 0 : FLUSH);
        for (int32_t k = -FAR; k < FAR; k += 13) {
            out_and_in(k, -k);
        }
        out_and_in(FAR, FAR);
        out_and_in(-1, 0);
        in(0, UNDRWYTH_ACCEPTED);
        in(0x8000000000000000, UNDRWYTH_ACCEPTED); /* minus zero */
        for (size_t b = 0; b < sizeof bad / sizeof bad[0]; b++) {
            in(bad[b], UNDRWYTH_REFUSAL_BAD_COORDINATE);
        }
    }
    set_mode(0, 0);
    if (failures == 0) {
        puts("modes: ok");
    }
    return failures != 0;
}
