/* SPDX-License-Identifier: MIT
 * The records that the commands for people read, and their walks in a table that is large enough for each. */
#ifndef RECORDS_H
#define RECORDS_H

#include "record.h"

extern enum reading reading;

/* The next line without its line feed, and without a carriage return before it or a byte order mark: 1; 0 at the end of the input;
 * -1 for a failure. A line of more bytes than the buffer has is cut, and `long_line` says so. */
int next_line(int input, struct record *record);
extern int long_line;

/* The end of the input, `last` being what next_line gave: the status, after a message if a read or a write failed. */
int end_of_input(int last);

/* Reads, splits and walks the next record: as next_line. A refused one has its refusal. The steps stand
 * until the next record but one is walked, the table and the marks until the next. */
int next_walk(int input, struct record *record, struct walk *walk);

/* Whether undrwyth judge refuses the record with 7: its table of 320 records is too small. */
int judge_lacks_records(const struct record *record);

#endif
