/* SPDX-License-Identifier: MIT
 * What the parts of the command undrwyth share: its statuses, its messages and its input. */
#ifndef COMMAND_H
#define COMMAND_H

#include <stddef.h>
#include <sys/types.h>

enum { WHOLE = 0, FAILED = 1, MISUSED = 2 }; /* 3 is for what could not be built */

/* A text or a sample that stands in the program. */
struct text {
    const unsigned char *from, *to;
};

/* Says why on standard error, after the name of the command; gives the status of a failure. */
int fail(const char *format, ...) __attribute__((format(printf, 1, 2)));

/* A command has one input, 0, or two. An input is a sample, a record, or the files, one after the other; if there are none it is
 * standard input. If `records` is not 0, what is not the name of a file may be a record itself. A file that cannot be opened now, or
 * a standard input that is closed, is a failure. */
enum { INPUTS = 2 };
void take_sample(int input, struct text sample);
void take_record(int input, const char *record);
int take_files(int input, char **files, int count, int records);

/* Whether the input consists of records that are arguments. */
int is_spoken(int input);

/* Whether a file is one that is still to be read. */
int is_read(const char *file);

/* The next bytes of the input, n at most: how many, 0 at its end, or -1. A file that lacks its last line feed gets it if another
 * one comes after it. */
ssize_t next_bytes(int input, unsigned char *to, size_t n);

/* Whether the first input ended in a line that lacks its line feed. */
int line_is_open(void);

/* The failure of a read, with what could not be read. */
int unread(const char *lost);

/* Writes all n bytes to standard output: 0, or -1. */
int write_bytes(const void *from, size_t n);

/* The commands: each gives its status. */
int run_lines(int (*proved)(int, char **), int in_words);
int explain(void), outline(void), hull(void), convex(void), orthogonal(void), spans(void), chains(void), overlay(void), table(void), draw(void), dxf(void), summary(void);
int page(void);

/* Commands that read their words themselves: MISUSED if these are wrong, and then they have said nothing. */
int parts(char **words, int count), orders(char **words, int count);

/* What options say: rooms are drawn apart, their polygons are written too, their orthogonal hulls are drawn too, the grid size of
 * orthogonal hulls, and the file for refused lines, or null. */
extern int apart, with_polygons, with_hull;
extern unsigned long grid_size;
extern const char *refused_lines;

#endif
