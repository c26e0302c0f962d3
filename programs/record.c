/* SPDX-License-Identifier: MIT
 * A record as people write it, and its walk: record.h. */
#include "record.h"

#include <string.h>

enum {
    HEAD = 6,           /* digits of a frame before its operations */
    NO_COUNT = 1 << 20, /* which no frame has */
};

static int is_hexadecimal(unsigned char c) {
    return (c >= '0' && c <= '9') || (c >= 'a' && c <= 'f');
}

static unsigned value(unsigned char c) {
    return c <= '9' ? c - (unsigned)'0' : c - (unsigned)'a' + 10;
}

/* A frame, as the line program takes it; or, in its place, 1 for what was meant as one, since its count has a letter. */
enum { NO_FRAME, MEANT, FRAME };
static int frame(const unsigned char *text, size_t n) {
    size_t letters = 0, count = 0;
    if (n < HEAD || text[0] != '0' || (text[1] != '0' && text[1] != '1')) return NO_FRAME;
    for (size_t i = 2; i < HEAD; i++) {
        unsigned char c = text[i] >= 'A' && text[i] <= 'F' ? (unsigned char)(text[i] + 32) : text[i];
        if (!is_hexadecimal(c)) return NO_FRAME;
        letters += c > '9';
        count = 16 * count + value(c);
        if (c != text[i]) count = NO_COUNT;
    }
    int whole_frame = count == n - HEAD && count <= UNDRWYTH_MOST_LINE_DIGITS;
    for (size_t i = HEAD; whole_frame && i < n; i++) whole_frame = is_hexadecimal(text[i]);
    return whole_frame ? FRAME : letters > 0 ? MEANT : NO_FRAME;
}

/* A whole number, which is brought into the range of the calls or just beyond it: whether it is one. */
static int whole_number(const unsigned char *text, size_t n, int32_t *number) {
    int32_t magnitude = 0;
    size_t i = n > 0 && text[0] == '-';
    if (i == n) return 0;
    for (; i < n; i++) {
        if (text[i] < '0' || text[i] > '9') return 0;
        if (magnitude <= UNDRWYTH_MOST_START) magnitude = 10 * magnitude + (text[i] - '0');
    }
    *number = text[0] == '-' ? -magnitude : magnitude;
    return 1;
}

/* The last place of a comma before n, or n. */
static size_t comma(const unsigned char *text, size_t n) {
    for (size_t i = n; i-- > 0;)
        if (text[i] == ',') return i;
    return n;
}

static void no_record(struct record *record, const char *why) {
    record->refusal = UNDRWYTH_REFUSAL_BAD_LINE;
    size_t n = undrwyth_refusal_sentence(record->sentence, sizeof record->sentence, record->refusal, 0, NULL, 4);
    strcpy(record->sentence + n, why);
}

void split_record(struct record *record, enum reading reading) {
    const unsigned char *line = record->line;
    size_t n = record->line_size, last = comma(line, n), y = last < n ? comma(line, last) : n, x = last < n && y < last ? comma(line, y) : n;
    record->digits = line + (last < n ? last + 1 : 0);
    record->count = n - (size_t)(record->digits - line);
    if (last < n && y == last) record->key_size = last; /* KEY,RECORD */
    else if (last < n) {
        size_t from = x < y ? x + 1 : 0;
        record->key_size = x < y ? x : 0;
        if (!whole_number(line + from, y - from, &record->x) || !whole_number(line + y + 1, last - y - 1, &record->y)) {
            record->x = record->y = 0;
            no_record(record, ": its start is not two whole numbers");
        }
    }
    record->keyed = record->key_size > 0;
    if (record->key_size >= 2 && line[0] == '"' && memchr(line + 1, '"', record->key_size - 1) == line + record->key_size - 1) {
        record->key++; /* a key in quotes, as CSV has it */
        record->key_size -= 2;
    }
    if (record->refusal != 0) return;
    if (record->count > UNDRWYTH_MOST_INPUT_BYTES) {
        refuse(record, UNDRWYTH_REFUSAL_TOO_MANY, 0);
        return;
    }
    int kind = reading == DIGITS ? NO_FRAME : frame(record->digits, record->count);
    if ((record->count == 0 && reading != DIGITS) || kind == MEANT || (reading == FRAMES && kind != FRAME)) no_record(record, "");
    else if (kind == FRAME && record->digits[1] == '1') refuse(record, UNDRWYTH_REFUSAL_RETIRED_KIND, 0);
    else if (kind == FRAME) {
        record->framed = 1;
        record->digits += HEAD;
        record->count -= HEAD;
    }
}

int refuse(struct record *record, uint32_t number, uint32_t place) {
    char fault[UNDRWYTH_FAULT_BYTES] = "the byte";
    if (place < record->count) {
        if (record->framed) undrwyth_byte_fault(fault, value(record->digits[place]));
        else undrwyth_text_fault(fault, record->digits + place, record->count - place);
    }
    record->refusal = number;
    record->place = place;
    undrwyth_refusal_sentence(record->sentence, sizeof record->sentence, number, place, fault, 4);
    return 0;
}

void begin_record(struct record *record, const unsigned char *line, size_t n) {
    record->line = record->key = record->digits = line;
    record->line_size = n;
    record->key_size = record->count = 0;
    record->keyed = record->framed = 0;
    record->x = record->y = 0;
    record->refusal = record->place = 0;
    record->sentence[0] = 0;
}

size_t table_words(const struct record *record) {
    size_t n = record->count, corners = n < UNDRWYTH_MOST_STEPS ? n + 1 : UNDRWYTH_MOST_STEPS + 1;
    return UNDRWYTH_RECORD_WORDS * (4 * corners + (record->x == 0 && record->y == 0 ? 0 : 64));
}

size_t marks_words(const struct record *record) {
    return UNDRWYTH_MARK_WORDS * record->count;
}

size_t operation_bytes(const struct record *record) {
    return record->count;
}

int walked(struct record *record, struct walk *walk) {
    size_t n = walk->operations = record->count;
    for (size_t i = 0; i < n; i++) {
        unsigned char c = record->digits[i];
        walk->bytes[i] = record->framed ? (uint8_t)value(c) : c >= '0' && c <= '9' ? (uint8_t)(c - '0') : 255;
    }
    if (undrwyth_walk(record->x, record->y, walk->bytes, n, walk->table, table_words(record), walk->marks, marks_words(record), walk->steps, n, walk->answer) != 0)
        return refuse(record, walk->answer[UNDRWYTH_WALK_NUMBER], walk->answer[UNDRWYTH_WALK_PLACE]);
    undrwyth_walk_sentence(record->sentence, sizeof record->sentence, record->x, record->y, walk->steps, walk->answer);
    return 1;
}
