/* SPDX-License-Identifier: MIT
 * Runs a proved program on lines. It is the `main` of a file in dist/, under another name. It calls read and write, asks for errno after
 * a failure, and at its start has SIGPIPE ignored; those are the functions here. It reads descriptor 0 and writes descriptor 1. What it
 * gives back says how it ended: 0 if all was read and written, 1 after a read that failed, 2 after a write that failed. */
#define _XOPEN_SOURCE 700
#include <errno.h>
#include <signal.h>
#include <stdio.h>
#include <string.h>
#include <unistd.h>

#include "command.h"

ssize_t lines_read(int descriptor, void *to, size_t n);
ssize_t lines_write(int descriptor, const void *from, size_t n);
int lines_errno(void);
void (*lines_signal(int number, void (*action)(int)))(int);

enum { ALL, UNREAD, UNWRITTEN }; /* what a program gives back */

static int words;  /* spans are written in words */
static int reason; /* errno of the write that failed */

/* In words, each record is followed by an empty line. The program refuses it, and the line of that refusal ends what is listed for
 * the record. */
static ssize_t with_empty_lines(unsigned char *to, size_t n) {
    ssize_t got = next_bytes(0, to, n / 2);
    size_t feeds = 0;
    if (got < 0) return got;
    if (got == 0) {
        static int closed;
        if (closed || !line_is_open()) return 0;
        closed = 1;
        memcpy(to, "\n\n", 2);
        return 2;
    }
    for (ssize_t i = 0; i < got; i++) feeds += to[i] == '\n';
    size_t at = (size_t)got + feeds, all = at;
    for (size_t i = (size_t)got; i-- > 0;) {
        if (to[i] == '\n') to[--at] = '\n';
        to[--at] = to[i];
    }
    return (ssize_t)all;
}

ssize_t lines_read(int descriptor, void *to, size_t n) {
    (void)descriptor;
    return words ? with_empty_lines(to, n) : next_bytes(0, to, n);
}

/* The number that hexadecimal digits spell. */
static unsigned long number(const char *digits, int count) {
    unsigned long value = 0;
    for (int i = 0; i < count; i++) value = 16 * value + (unsigned long)(digits[i] <= '9' ? digits[i] - '0' : digits[i] - 'a' + 10);
    return value;
}

/* The number that four digits spell in two's complement. */
static int signed_number(const char *digits) {
    int value = (int)number(digits, 4);
    return value < 32768 ? value : value - 65536;
}

/* Writes one line of the program in words: 12 digits are a span, 10 a refusal. What is written so goes to `to`, at most 100 bytes. */
static int in_words(const char *line, int length, char *to) {
    static int row, spans, ended;
    static long panels;
    if (ended) return ended = 0;
    if (length == 12) {
        int at = signed_number(line), first = signed_number(line + 4), past = signed_number(line + 8), n;
        if (spans == 0 || at != row) n = sprintf(to, "%srow %d: %d", spans == 0 ? "" : "\n", at, first);
        else n = sprintf(to, ", %d", first);
        if (first < past) n += sprintf(to + n, " to %d", past);
        row = at;
        spans++;
        panels += past - first + 1;
        return n;
    }
    if (spans > 0) {
        int n = sprintf(to, "\n%ld panel%s\n", panels, panels == 1 ? "" : "s");
        spans = 0;
        panels = 0;
        return n;
    }
    ended = 1;
    return sprintf(to, "refused: %lu at place %lu\n", number(line, 2) - 128, number(line + 2, 8));
}

/* Writes what the program writes, in words. */
static ssize_t write_words(const char *from, size_t n) {
    static char line[16];
    static int length;
    char out[4096];
    size_t used = 0;
    for (size_t i = 0; i < n; i++) {
        if (from[i] != '\n') {
            if (length < (int)sizeof line) line[length++] = from[i];
            continue;
        }
        if (used > sizeof out - 100) {
            if (write_bytes(out, used) < 0) return -1;
            used = 0;
        }
        used += (size_t)in_words(line, length, out + used);
        length = 0;
    }
    return write_bytes(out, used) < 0 ? -1 : (ssize_t)n;
}

ssize_t lines_write(int descriptor, const void *from, size_t n) {
    ssize_t done;
    (void)descriptor;
    if (words) done = write_words(from, n);
    else
        do done = write(1, from, n);
        while (done < 0 && errno == EINTR);
    if (done < 0) reason = errno;
    return done;
}

int lines_errno(void) { return errno; }

/* The command has SIGPIPE ignored before the program starts. */
void (*lines_signal(int number, void (*action)(int)))(int) {
    (void)number;
    return action;
}

int run_lines(int (*proved)(int, char **), int in_words) {
    words = in_words;
    switch (proved(0, (char *[]){NULL})) {
        case ALL: return WHOLE;
        case UNREAD: return unread(", and a line that was begun is not written");
        case UNWRITTEN: return fail("a write to standard output failed: %s, and not all output was written", strerror(reason));
    }
    return fail("the program did not say how it ended");
}
