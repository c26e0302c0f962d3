/* SPDX-License-Identifier: MIT
 * SHA-256, as FIPS 180-4 defines it. The constants are the first 32 bits of the fractional parts of roots of primes, and they are
 * computed here from the primes, so that no table has to be believed. */
#include <string.h>

#include "checksum.h"

__extension__ typedef unsigned __int128 wide;

static uint32_t constants[64], beginning[8];

/* The first 32 bits after the point of the root of n: the square root, or the cube root. r is the root times 2^32, rounded down; it
 * is found bit by bit, and its low 32 bits are the answer. */
static uint32_t root_bits(uint32_t n, int cube) {
    uint64_t r = 0;
    for (int bit = 36; bit >= 0; bit--) {
        wide t = r | (uint64_t)1 << bit, power = t * t;
        if (cube) {
            /* t^3 against n * 2^96: both sides are divided by 2^64 after t^2 is split, so that nothing overflows */
            wide high = power >> 64, low = (uint64_t)power, product = high * t + ((low * t) >> 64);
            if (product < (wide)n << 32) r = (uint64_t)t;
        } else if (power < (wide)n << 64) r = (uint64_t)t;
    }
    return (uint32_t)r;
}

static void make_constants(void) {
    uint32_t n = 2;
    for (int found = 0; found < 64; n++) {
        int prime = 1;
        for (uint32_t d = 2; d * d <= n; d++) prime &= n % d != 0;
        if (!prime) continue;
        constants[found] = root_bits(n, 1);
        if (found < 8) beginning[found] = root_bits(n, 0);
        found++;
    }
}

static uint32_t turned(uint32_t x, int by) {
    return x >> by | x << (32 - by);
}

/* Takes one block of 64 bytes into the state. */
static void take_block(uint32_t state[8], const unsigned char *block) {
    uint32_t w[64], v[8];
    for (int i = 0; i < 16; i++)
        w[i] = (uint32_t)block[4 * i] << 24 | (uint32_t)block[4 * i + 1] << 16 | (uint32_t)block[4 * i + 2] << 8 | block[4 * i + 3];
    for (int i = 16; i < 64; i++) {
        uint32_t a = w[i - 15], b = w[i - 2];
        w[i] = w[i - 16] + (turned(a, 7) ^ turned(a, 18) ^ a >> 3) + w[i - 7] + (turned(b, 17) ^ turned(b, 19) ^ b >> 10);
    }
    memcpy(v, state, sizeof v);
    for (int i = 0; i < 64; i++) {
        uint32_t a = v[0], e = v[4];
        uint32_t one = v[7] + (turned(e, 6) ^ turned(e, 11) ^ turned(e, 25)) + ((e & v[5]) ^ (~e & v[6])) + constants[i] + w[i];
        uint32_t two = (turned(a, 2) ^ turned(a, 13) ^ turned(a, 22)) + ((a & v[1]) ^ (a & v[2]) ^ (v[1] & v[2]));
        memmove(v + 1, v, 7 * sizeof *v);
        v[4] += one;
        v[0] = one + two;
    }
    for (int i = 0; i < 8; i++) state[i] += v[i];
}

void sum_begin(struct sum *sum) {
    if (constants[0] == 0) make_constants();
    memcpy(sum->state, beginning, sizeof beginning);
    sum->bytes = 0;
}

void sum_add(struct sum *sum, const void *from, size_t n) {
    const unsigned char *at = from;
    size_t held = sum->bytes % 64;
    sum->bytes += n;
    if (held + n < 64) {
        memcpy(sum->block + held, at, n);
        return;
    }
    if (held > 0) {
        memcpy(sum->block + held, at, 64 - held);
        at += 64 - held;
        n -= 64 - held;
        take_block(sum->state, sum->block);
    }
    for (; n >= 64; at += 64, n -= 64) take_block(sum->state, at);
    memcpy(sum->block, at, n);
}

void sum_end(struct sum *sum, char hex[SUM_DIGITS + 1]) {
    static const unsigned char padding[64] = {0x80};
    uint64_t bits = 8 * sum->bytes;
    unsigned char length[8];
    size_t held = sum->bytes % 64;
    for (int i = 0; i < 8; i++) length[i] = (unsigned char)(bits >> (56 - 8 * i));
    sum_add(sum, padding, held < 56 ? 56 - held : 120 - held);
    sum_add(sum, length, 8);
    for (int i = 0; i < SUM_DIGITS; i++) hex[i] = "0123456789abcdef"[sum->state[i / 8] >> (28 - 4 * (i % 8)) & 15];
    hex[SUM_DIGITS] = 0;
}
