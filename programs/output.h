/* SPDX-License-Identifier: MIT
 * What the commands for people write. All output goes through one buffer. It is written when it is full, before more input is read,
 * and at the end. */
#ifndef OUTPUT_H
#define OUTPUT_H

#include "records.h"

void put(const char *text);
void put_bytes(const void *from, size_t n);
void put_number(long long number);

/* Writes what is held. */
void write_held(void);

/* Whether a write failed: there is no need to go on. */
int not_written(void);

/* Writes what is held: the status, after a message if not all was written. */
int written(void);

/* The first character of a text in UTF-8: how many bytes it has, or 0 if it is not UTF-8. */
size_t character(const unsigned char *text, size_t n, uint32_t *value);

/* A row for a record: a sentence with the record's label before it, an object of JSON, or a line of CSV. The last two have the
 * facts too, in the order of the table's columns; a fact that is left out is null or empty. */
enum form { SENTENCES, JSON, CSV };
extern enum form form;

void begin_table(const char *const *facts); /* names up to a null; CSV begins with them */
void begin_row(const struct record *record);
void fact(long long number);
void fact_truth(int truth); /* 1 or 0, which JSON calls true and false */
void no_fact(void);
void fact_text(const void *text, size_t n);
void fact_list(const int32_t *numbers, size_t count, size_t width); /* of width numbers each */
void end_row(const char *sentence);

/* The record's number and its key. A record that was an argument has no number there. */
void put_label(const struct record *record);

/* The whole row of a record that is refused. */
void put_refused(const struct record *record);

#endif
