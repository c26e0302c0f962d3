/* SPDX-License-Identifier: MIT
 * The checksum of a file, as sha256sum prints it. */
#ifndef CHECKSUM_H
#define CHECKSUM_H

#include <stddef.h>
#include <stdint.h>

enum { SUM_DIGITS = 64 };

struct sum {
    uint32_t state[8];
    uint64_t bytes;
    unsigned char block[64];
};

void sum_begin(struct sum *sum);
void sum_add(struct sum *sum, const void *from, size_t n);
void sum_end(struct sum *sum, char hex[SUM_DIGITS + 1]); /* the digits, and a 0 after them */

#endif
