/* SPDX-License-Identifier: MIT
 * Writes rooms as a drawing, DXF of release 12: a closed polyline for each, in millimetres, on a layer with the room's name, and a
 * label. The points are those that undrwyth_polygon_of_room writes. */
#define _XOPEN_SOURCE 700
#include <stdarg.h>
#include <stdio.h>
#include <string.h>

#include "command.h"
#include "output.h"
#include "rooms.h"

enum {
    PANEL = 600,     /* millimetres of a panel's side */
    LAYER = 31,      /* most characters of a layer's name */
    ACROSS = 200,    /* panels across that rooms take which are drawn apart */
    GAP = 2          /* panels between them */
};

int apart;

static struct record record;
static struct walk walk;
static int shift_x, shift_y; /* panels by which the room is moved */

/* A group of the drawing: its code and its value. */
static void group(int code, const char *format, ...) __attribute__((format(printf, 2, 3)));
static void group(int code, const char *format, ...) {
    char piece[256];
    int n = snprintf(piece, sizeof piece, "%3d\n", code);
    va_list words;
    va_start(words, format);
    vsnprintf(piece + n, sizeof piece - (size_t)n, format, words);
    va_end(words);
    put(piece);
    put("\n");
}

static void point(int code, double x, double y) {
    group(code, "%.10g", x);
    group(code + 10, "%.10g", y);
    group(code + 20, "0");
}

static void header(void) {
    static const struct { const char *name; int code, value; } units[] = {{"$INSUNITS", 70, 4}, {"$MEASUREMENT", 70, 1}, {"$LUNITS", 70, 2}, {"$LUPREC", 70, 0}};
    group(999, "undrwyth dxf " UNDRWYTH_VERSION ", millimetres");
    group(0, "SECTION");
    group(2, "HEADER");
    group(9, "$ACADVER");
    group(1, "AC1009");
    for (size_t i = 0; i < sizeof units / sizeof *units; i++) {
        group(9, "%s", units[i].name);
        group(units[i].code, "%d", units[i].value);
    }
    group(0, "ENDSEC");
    group(0, "SECTION");
    group(2, "TABLES");
    group(0, "TABLE");
    group(2, "LTYPE");
    group(70, "1");
    group(0, "LTYPE");
    group(2, "CONTINUOUS");
    group(70, "0");
    group(3, "Solid line");
    group(72, "65");
    group(73, "0");
    group(40, "0");
    group(0, "ENDTAB");
    group(0, "TABLE");
    group(2, "LAYER");
    group(70, "1");
    group(0, "LAYER");
    group(2, "0");
    group(70, "0");
    group(62, "7");
    group(6, "CONTINUOUS");
    group(0, "ENDTAB");
    group(0, "ENDSEC");
    group(0, "SECTION");
    group(2, "ENTITIES");
}

/* The layer of a room: its key, with what release 12 does not take in a name as a low line; or ROOM and its number. */
static void name_layer(char layer[LAYER + 1]) {
    size_t n = 0;
    if (!record.keyed || record.key_size == 0) {
        snprintf(layer, LAYER + 1, "ROOM-%llu", record.number);
        return;
    }
    for (size_t i = 0; i < record.key_size && n < LAYER; i++) {
        unsigned char c = record.key[i];
        if ((c & 0xc0) == 0x80) continue; /* the rest of a character */
        int taken = (c >= '0' && c <= '9') || (c >= 'A' && c <= 'Z') || (c >= 'a' && c <= 'z') || c == '-' || c == '$';
        layer[n++] = taken ? (char)c : '_';
    }
    layer[n] = 0;
}

/* The label: the room's name and its panels; what is not ASCII is written as release 12 does. It gives the number of characters. */
static size_t name_label(char *label, size_t room, uint32_t panels) {
    size_t n = 0, characters = 0;
    if (!record.keyed) n = characters = (size_t)snprintf(label, room, "%llu", record.number);
    else
        for (size_t i = 0, size; i < record.key_size && n + 64 < room; i += size) {
            uint32_t value;
            size = character(record.key + i, record.key_size - i, &value);
            if (size == 1 && value >= 0x20 && value < 0x7f) label[n++] = (char)value;
            else n += (size_t)snprintf(label + n, room - n, "\\U+%04X", size > 0 && value >= 0x20 && value < 0x10000 ? (unsigned)value : 0xfffdu);
            if (size == 0) size = 1;
            characters++;
        }
    return characters + (size_t)snprintf(label + n, room - n, ": %u panel%s", (unsigned)panels, panels == 1 ? "" : "s");
}

/* The double that eight bytes spell, lowest first. */
static double coordinate(const uint8_t *at) {
    uint64_t bits = 0;
    double number;
    for (int i = 8; i-- > 0;) bits = bits << 8 | at[i];
    memcpy(&number, &bits, sizeof number);
    return number;
}

/* Moves the room beside those that were drawn: rows of at most ACROSS panels, from west to east, each row north of the last. */
static void move_apart(const int32_t *spans, uint32_t count) {
    static int next, base, top;
    int west = spans[1], east = spans[2], south = spans[0], north = spans[3 * count - 3];
    for (uint32_t i = 1; i < count; i++) {
        if (spans[3 * i + 1] < west) west = spans[3 * i + 1];
        if (spans[3 * i + 2] > east) east = spans[3 * i + 2];
    }
    if (next > 0 && next + east + 1 - west > ACROSS) {
        next = 0;
        base = top + GAP;
    }
    shift_x = next - west;
    shift_y = base - south;
    next += east + 1 - west + GAP;
    if (base + north + 1 - south > top) top = base + north + 1 - south;
}

/* The outline of the room, as a closed polyline. */
static void polyline(const char *layer, const uint8_t *polygon, size_t bytes) {
    group(0, "POLYLINE");
    group(8, "%s", layer);
    group(66, "1");
    point(10, 0, 0);
    group(70, "1");
    for (size_t i = UNDRWYTH_POLYGON_HEADER_BYTES; i + UNDRWYTH_POINT_BYTES < bytes; i += UNDRWYTH_POINT_BYTES) { /* the last is the first */
        group(0, "VERTEX");
        group(8, "%s", layer);
        point(10, coordinate(polygon + i) + (double)PANEL * shift_x, coordinate(polygon + i + 8) + (double)PANEL * shift_y);
    }
    group(0, "SEQEND");
    group(8, "%s", layer);
}

/* The label, in the middle of the room's longest span and no wider than that. */
static void label(const char *layer, const int32_t *spans, uint32_t count) {
    const int32_t *longest = spans;
    int32_t area = (int32_t)walk.answer[UNDRWYTH_WALK_AREA];
    for (const int32_t *span = spans; span < spans + 3 * count; span += 3)
        if (span[2] - span[1] > longest[2] - longest[1]) longest = span;
    char text[200];
    size_t n = name_label(text, sizeof text, (uint32_t)(area < 0 ? -area : area));
    double wide = (double)PANEL * (longest[2] - longest[1] + 1), high = wide / (double)(n + 1);
    double x = PANEL * (shift_x + longest[1]) + wide / 2, y = PANEL * (shift_y + longest[0]) + PANEL / 2.0;
    group(0, "TEXT");
    group(8, "%s", layer);
    point(10, x, y);
    group(40, "%.4g", high > PANEL / 3 ? PANEL / 3 : high);
    group(1, "%s", text);
    group(72, "1");
    point(11, x, y);
    group(73, "2");
}

/* Draws the record if it is a room: whether it is. */
static int drawn(void) {
    static uint8_t polygon[UNDRWYTH_POLYGON_HEADER_BYTES + UNDRWYTH_POINT_BYTES * (UNDRWYTH_MOST_STEPS + 1)];
    static int32_t spans[3 * UNDRWYTH_MOST_STEPS / 2];
    uint32_t written[UNDRWYTH_POLYGON_ANSWER_WORDS], rows[UNDRWYTH_ROWS_ANSWER_WORDS], n = walk.answer[UNDRWYTH_WALK_STEPS];
    char layer[LAYER + 1];
    if (!is_room(&record, &walk)) return 0;
    if (undrwyth_polygon_of_room(record.x, record.y, walk.steps, n, polygon, sizeof polygon, written) != 0)
        return refuse(&record, written[UNDRWYTH_POLYGON_NUMBER], written[UNDRWYTH_POLYGON_PLACE]);
    if (undrwyth_rows(record.x, record.y, walk.steps, n, spans, sizeof spans / sizeof *spans, rows) != 0)
        return refuse(&record, rows[UNDRWYTH_ROWS_NUMBER], rows[UNDRWYTH_ROWS_PLACE]);
    if (apart) move_apart(spans, rows[UNDRWYTH_ROWS_SPANS]);
    name_layer(layer);
    polyline(layer, polygon, written[UNDRWYTH_POLYGON_BYTES]);
    label(layer, spans, rows[UNDRWYTH_ROWS_SPANS]);
    return 1;
}

int dxf(void) {
    unsigned long long left_out = 0, first = 0;
    char why[sizeof record.sentence] = "";
    int got;
    header();
    while ((got = next_walk(0, &record, &walk)) > 0) {
        if (drawn()) continue;
        if (left_out++ == 0) {
            first = record.number;
            memcpy(why, record.sentence, sizeof why);
        }
    }
    if (got == 0) { /* a drawing that is not whole has no end */
        group(0, "ENDSEC");
        group(0, "EOF");
    }
    int status = end_of_input(got);
    if (status == WHOLE && left_out > 0)
        fail("%llu of %llu records are not in the drawing; the first is that of line %llu: %s", left_out, record.number, first, why);
    return status;
}
