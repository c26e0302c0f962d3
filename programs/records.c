/* SPDX-License-Identifier: MIT
 * The records that the commands for people read: records.h. Memory is the same for every input. */
#define _XOPEN_SOURCE 700
#include "records.h"

#include <errno.h>
#include <stdio.h>
#include <string.h>
#include <time.h>
#include <unistd.h>

#include "command.h"
#include "output.h"

enum {
    HEAD = 6,                                              /* digits of a frame before its operations */
    MOST_LINE = 1 << 20,                                   /* bytes of a line that are kept: a polygon has 524,346 at most */
    TABLE = UNDRWYTH_RECORD_WORDS * (4 * UNDRWYTH_MOST_STEPS + 68) /* words that serve every walk */
};

enum reading reading;
int long_line;

/* What was read of each input, and a line of it that stands in more than one part. */
static struct {
    unsigned char part[65536], whole[MOST_LINE];
    size_t at, have;
} readers[INPUTS];
static int marked, returned; /* a byte order mark or a carriage return was left out */

/* How far the work is, on standard error, if that is a terminal and standard output is not, and after a second. */
static void tell_progress(unsigned long long number) {
    static struct timespec before, now;
    static int asked, shown;
    if (asked == 0) asked = isatty(2) && !isatty(1) ? 1 : -1;
    if (asked < 0 || (number != 0 && number % 1024 != 1)) return;
    if (number == 0) {
        if (shown && write(2, "\r\033[K", 4) < 0) shown = 0;
        shown = 0;
        return;
    }
    clock_gettime(CLOCK_MONOTONIC, &now);
    if (before.tv_sec == 0) before = now;
    if (now.tv_sec - before.tv_sec + (now.tv_nsec >= before.tv_nsec ? 0 : -1) < 1) return;
    before = now;
    char words[64];
    int n = snprintf(words, sizeof words, "\r%llu lines", number);
    shown = write(2, words, (size_t)n) == n;
}

/* The bytes of the next line, the last one with or without its line feed, where they stand: as next_line. */
static int read_line(int input, const unsigned char **line, size_t *size) {
    unsigned char *part = readers[input].part, *whole = readers[input].whole;
    size_t n = 0;
    long_line = 0;
    for (;;) {
        size_t at = readers[input].at, have = readers[input].have;
        if (at == have) {
            write_held();
            ssize_t got = next_bytes(input, part, sizeof readers[input].part);
            if (got < 0) return -1;
            if (got == 0 && n == 0) return 0;
            at = 0;
            have = readers[input].have = (size_t)got;
        }
        unsigned char *feed = memchr(part + at, '\n', have - at);
        size_t end = feed != NULL ? (size_t)(feed - part) : have, some = end - at;
        if (feed != NULL && n == 0) *line = part + at;
        else {
            if (some > MOST_LINE - n) {
                long_line = 1;
                some = MOST_LINE - n;
            }
            memcpy(whole + n, part + at, some);
            *line = whole;
        }
        n += some;
        readers[input].at = feed != NULL ? end + 1 : have;
        if (feed != NULL || have == 0) break;
    }
    *size = n;
    return 1;
}

int next_line(int input, struct record *record) {
    unsigned long long number = record->number + 1;
    const unsigned char *line = NULL;
    size_t n = 0;
    int got = not_written() ? 0 : read_line(input, &line, &n);
    tell_progress(got > 0 ? number : 0);
    if (got <= 0) return got;
    if (n >= 3 && memcmp(line, "\xef\xbb\xbf", 3) == 0) {
        marked = 1;
        line += 3;
        n -= 3;
    }
    if (n > 0 && line[n - 1] == '\r') {
        returned = 1;
        n--;
    }
    record->number = number;
    record->spoken = is_spoken(input);
    begin_record(record, line, n);
    return 1;
}

int end_of_input(int last) {
    int status = last < 0 ? unread("") : WHOLE;
    if (written() != WHOLE) return FAILED;
    if (status == WHOLE && (marked || returned))
        fail("%s left out, with which undrwyth judge refuses a line", marked && returned ? "a byte order mark and carriage returns were"
             : marked ? "a byte order mark was" : "carriage returns were");
    return status;
}

/* Lends what a walk needs; its steps stand until the next walk but one. */
static void lend(struct walk *walk) {
    static uint32_t table[TABLE], marks[UNDRWYTH_MARK_WORDS * UNDRWYTH_MOST_INPUT_BYTES];
    static uint8_t bytes[UNDRWYTH_MOST_INPUT_BYTES], steps[2][UNDRWYTH_MOST_INPUT_BYTES];
    static int turn;
    turn = 1 - turn;
    walk->table = table;
    walk->marks = marks;
    walk->bytes = bytes;
    walk->steps = steps[turn];
}

int next_walk(int input, struct record *record, struct walk *walk) {
    int got = next_line(input, record);
    if (got > 0 && long_line) refuse(record, UNDRWYTH_REFUSAL_TOO_MANY, 0);
    else if (got > 0) split_record(record, reading);
    lend(walk);
    if (got > 0 && record->refusal == 0) walked(record, walk);
    return got;
}

int judge_lacks_records(const struct record *record) {
    uint8_t line[HEAD + UNDRWYTH_MOST_LINE_DIGITS], answer[UNDRWYTH_LINE_BYTES];
    if (record->refusal != 0 || record->count > UNDRWYTH_MOST_LINE_DIGITS) return 0;
    static const char hexadecimal[] = "0123456789abcdef";
    memcpy(line, "00", 2);
    for (size_t i = 0; i < 4; i++) line[2 + i] = (uint8_t)hexadecimal[record->count >> (12 - 4 * i) & 15];
    memcpy(line + HEAD, record->digits, record->count);
    undrwyth_line(line, HEAD + record->count, answer, sizeof answer);
    return answer[0] == '8' && answer[1] == '0' + UNDRWYTH_REFUSAL_NO_ROOM;
}
