/* SPDX-License-Identifier: MIT
 * What the commands for people write: text through one buffer, and rows of facts as sentences, JSON or CSV. */
#define _XOPEN_SOURCE 700
#include "output.h"

#include <errno.h>
#include <string.h>
#include <unistd.h>

#include "command.h"

static char held[65536];
static size_t used;
static int reason; /* errno of the first write that failed, if one did */

void write_held(void) {
    if (used > 0 && reason == 0 && write_bytes(held, used) < 0) reason = errno;
    used = 0;
}

void put_bytes(const void *from, size_t n) {
    const char *at = from;
    while (n > 0) {
        size_t some = sizeof held - used < n ? sizeof held - used : n;
        memcpy(held + used, at, some);
        used += some;
        at += some;
        n -= some;
        if (used == sizeof held) write_held();
    }
}

void put(const char *text) {
    put_bytes(text, strlen(text));
}

void put_number(long long number) {
    char digits[24];
    size_t at = sizeof digits;
    unsigned long long left = number < 0 ? 0 - (unsigned long long)number : (unsigned long long)number;
    do digits[--at] = (char)('0' + left % 10);
    while ((left /= 10) > 0);
    if (number < 0) digits[--at] = '-';
    put_bytes(digits + at, sizeof digits - at);
}

int not_written(void) {
    return reason != 0;
}

int written(void) {
    write_held();
    if (reason == 0) return WHOLE;
    return fail("a write to standard output failed: %s, and not all output was written", strerror(reason));
}

size_t character(const unsigned char *text, size_t n, uint32_t *value) {
    static const uint32_t least[] = {0, 0, 0x80, 0x800, 0x10000};
    unsigned char first = text[0];
    size_t size = first < 0x80 ? 1 : first < 0xc2 ? 0 : first < 0xe0 ? 2 : first < 0xf0 ? 3 : first < 0xf5 ? 4 : 0;
    if (size == 0 || size > n) return 0;
    *value = size == 1 ? first : first & (0x7fu >> size);
    for (size_t i = 1; i < size; i++) {
        if ((text[i] & 0xc0) != 0x80) return 0;
        *value = *value << 6 | (text[i] & 0x3f);
    }
    return *value >= least[size] && *value < 0x110000 && (*value < 0xd800 || *value >= 0xe000) ? size : 0;
}

/* A text of JSON; a byte that is not UTF-8 becomes the sign for that. */
static void put_json(const unsigned char *text, size_t n) {
    static const char hexadecimal[] = "0123456789abcdef";
    put("\"");
    for (size_t i = 0, size; i < n; i += size) {
        uint32_t value;
        size = character(text + i, n - i, &value);
        if (size == 0) {
            put("\\ufffd");
            size = 1;
        } else if (value == '"' || value == '\\') {
            put("\\");
            put_bytes(text + i, 1);
        } else if (value < 0x20 || value == 0x7f) {
            char escape[] = {'\\', 'u', '0', '0', hexadecimal[value >> 4], hexadecimal[value & 15]};
            put_bytes(escape, sizeof escape);
        } else put_bytes(text + i, size);
    }
    put("\"");
}

/* A field of CSV, in quotes if it needs them. */
static void put_csv(const unsigned char *text, size_t n) {
    int quoted = 0;
    for (size_t i = 0; i < n; i++) quoted |= text[i] == ',' || text[i] == '"' || text[i] == '\r' || text[i] == ' ';
    if (!quoted) {
        put_bytes(text, n);
        return;
    }
    put("\"");
    for (size_t i = 0; i < n; i++) {
        if (text[i] == '"') put("\"");
        put_bytes(text + i, 1);
    }
    put("\"");
}

enum form form;
static const char *const *columns; /* of the facts, up to a null */
static int at;                     /* the next column */

/* The name of the next column and what stands before its value. */
static void begin_field(const char *name) {
    if (form == JSON) {
        put(at < 0 ? "{\"" : ",\"");
        put(name);
        put("\":");
    } else if (at >= 0) put(",");
    if (at < 0) at = 0;
}

static void put_field(const char *name, const void *text, size_t n) {
    begin_field(name);
    if (form == JSON) put_json(text, n);
    else put_csv(text, n);
}

void begin_table(const char *const *facts) {
    columns = facts;
    if (form != CSV) return;
    put("record,key,x,y,refusal,place");
    for (size_t i = 0; facts[i] != NULL; i++) {
        put(",");
        put(facts[i]);
    }
    put(",sentence\n");
}

void begin_row(const struct record *record) {
    at = -1;
    if (form == SENTENCES) {
        put_label(record);
        return;
    }
    begin_field("record");
    put_number((long long)record->number);
    if (record->keyed) put_field("key", record->key, record->key_size);
    else {
        begin_field("key");
        if (form == JSON) put("null");
    }
    begin_field("x");
    put_number(record->x);
    begin_field("y");
    put_number(record->y);
    begin_field("refusal");
    put_number(record->refusal);
    begin_field("place");
    put_number(record->place);
}

void fact(long long number) {
    if (form == SENTENCES) return;
    begin_field(columns[at++]);
    put_number(number);
}

void fact_truth(int truth) {
    if (form != JSON) fact(truth);
    else {
        begin_field(columns[at++]);
        put(truth ? "true" : "false");
    }
}

void no_fact(void) {
    if (form == SENTENCES) return;
    begin_field(columns[at++]);
    if (form == JSON) put("null");
}

void fact_text(const void *text, size_t n) {
    if (form != SENTENCES) put_field(columns[at++], text, n);
}

void fact_list(const int32_t *numbers, size_t count, size_t width) {
    if (form == SENTENCES) return;
    begin_field(columns[at++]);
    put(form == JSON ? "[" : "\"");
    for (size_t i = 0; i < count; i++) {
        if (form == JSON) put(i == 0 ? "[" : ",[");
        else if (i > 0) put(";");
        for (size_t j = 0; j < width; j++) {
            if (j > 0) put(form == JSON ? "," : " ");
            put_number(numbers[width * i + j]);
        }
        if (form == JSON) put("]");
    }
    put(form == JSON ? "]" : "\"");
}

void end_row(const char *sentence) {
    if (form != SENTENCES) {
        while (columns[at] != NULL) no_fact();
        put_field("sentence", sentence, strlen(sentence));
        if (form == JSON) put("}");
    } else put(sentence);
    put("\n");
}

void put_label(const struct record *record) {
    if (record->spoken) {
        if (!record->keyed) return;
        put_bytes(record->key, record->key_size);
    } else {
        put_number((long long)record->number);
        if (record->keyed) {
            put(" ");
            put_bytes(record->key, record->key_size);
        }
    }
    put(": ");
}

void put_refused(const struct record *record) {
    char sentence[sizeof "refused: " + sizeof record->sentence] = "refused: ";
    strcat(sentence, record->sentence);
    begin_row(record);
    end_row(sentence);
}
