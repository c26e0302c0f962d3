/* SPDX-License-Identifier: MIT
 * The commands that answer each record in words, or as JSON or CSV: what proved calls answer. Nothing is judged here. */
#define _XOPEN_SOURCE 700
#include <stdio.h>
#include <string.h>

#include "command.h"
#include "output.h"

static struct record record;
static struct walk walk;

/* Reads all records. What is refused is written so; `answer` writes the rest, or refuses a record and gives 0. */
static int answer_each(const char *const *facts, int (*answer)(void)) {
    int got;
    begin_table(facts);
    while ((got = next_walk(0, &record, &walk)) > 0)
        if (record.refusal != 0 || !answer()) put_refused(&record);
    return end_of_input(got);
}

static uint32_t of_walk(int word) {
    return walk.answer[word];
}

int with_polygons;

/* The polygon of a room, in hexadecimal, as a fact; another walk has none. */
static void polygon_fact(void) {
    static const char hexadecimal[] = "0123456789abcdef";
    static uint8_t out[UNDRWYTH_POLYGON_HEADER_BYTES + UNDRWYTH_POINT_BYTES * (UNDRWYTH_MOST_STEPS + 1)];
    static char digits[2 * sizeof out];
    uint32_t answer[UNDRWYTH_POLYGON_ANSWER_WORDS];
    if (undrwyth_polygon_of_room(record.x, record.y, walk.steps, of_walk(UNDRWYTH_WALK_STEPS), out, sizeof out, answer) != 0) {
        no_fact();
        return;
    }
    uint32_t n = answer[UNDRWYTH_POLYGON_BYTES];
    for (uint32_t i = 0; i < n; i++) {
        digits[2 * i] = hexadecimal[out[i] >> 4];
        digits[2 * i + 1] = hexadecimal[out[i] & 15];
    }
    fact_text(digits, 2 * n);
}

static int explained(void) {
    uint32_t verdict = of_walk(UNDRWYTH_WALK_VERDICT), k = of_walk(UNDRWYTH_WALK_K);
    int32_t area = (int32_t)of_walk(UNDRWYTH_WALK_AREA);
    const char *name = undrwyth_verdict_name(verdict);
    begin_row(&record);
    fact_text(name, strlen(name));
    fact(of_walk(UNDRWYTH_WALK_STEPS));
    fact(of_walk(UNDRWYTH_WALK_NODES));
    fact(of_walk(UNDRWYTH_WALK_CORNERS));
    if (k == UNDRWYTH_NO_MEETING) {
        no_fact();
        no_fact();
    } else {
        fact(of_walk(UNDRWYTH_WALK_J));
        fact(k);
    }
    fact(area);
    fact(area < 0 ? -(long long)area : area);
    fact((int32_t)of_walk(UNDRWYTH_WALK_LAST_X));
    fact((int32_t)of_walk(UNDRWYTH_WALK_LAST_Y));
    if (with_polygons) polygon_fact();
    end_row(record.sentence);
    return 1;
}

int explain(void) {
    static const char *facts[] = {"verdict", "steps", "nodes", "corners", "j", "k", "area", "panels", "last_x", "last_y", "wkb", NULL};
    if (!with_polygons) facts[10] = NULL;
    return answer_each(facts, explained);
}

/* Steps as digits, in their place. */
static void as_digits(uint8_t *steps, size_t n) {
    for (size_t i = 0; i < n; i++) steps[i] = (uint8_t)(steps[i] + '0');
}

/* A chain as a record that other commands read: KEY,X,Y,DIGITS. */
static void put_chain(int32_t x, int32_t y, const uint8_t *digits, size_t n) {
    if (record.keyed) {
        put_bytes(record.key, record.key_size);
        put(",");
    }
    put_number(x);
    put(",");
    put_number(y);
    put(",");
    put_bytes(digits, n);
    put("\n");
}

/* The row of a chain. */
static void chain_row(int32_t x, int32_t y, uint8_t *steps, size_t n) {
    as_digits(steps, n);
    if (form == SENTENCES) {
        put_chain(x, y, steps, n);
        return;
    }
    char sentence[96];
    snprintf(sentence, sizeof sentence, "%zu step%s from (%d,%d)", n, n == 1 ? "" : "s", (int)x, (int)y);
    record.x = x;
    record.y = y;
    begin_row(&record);
    fact((long long)n);
    fact_text(steps, n);
    end_row(sentence);
}

static const char *const chain_facts[] = {"steps", "chain", NULL};

static int outlined(void) {
    static uint8_t out[2 * UNDRWYTH_MOST_STEPS];
    uint32_t answer[UNDRWYTH_OUTLINE_ANSWER_WORDS];
    size_t n = of_walk(UNDRWYTH_WALK_STEPS);
    int32_t x = record.x, y = record.y, west = x, low = y; /* it starts at the lowest of the leftmost corners */
    if (undrwyth_outline(x, y, walk.steps, n, out, sizeof out, answer) != 0)
        return refuse(&record, answer[UNDRWYTH_OUTLINE_NUMBER], answer[UNDRWYTH_OUTLINE_PLACE]);
    for (size_t i = 0; i < n; i++) {
        x += (walk.steps[i] == 0) - (walk.steps[i] == 2);
        y += (walk.steps[i] == 1) - (walk.steps[i] == 3);
        if (x < west || (x == west && y < low)) {
            west = x;
            low = y;
        }
    }
    chain_row(west, low, out, answer[UNDRWYTH_OUTLINE_STEPS]);
    return 1;
}

int outline(void) {
    return answer_each(chain_facts, outlined);
}

static int hulled(void) {
    static int32_t out[2 * UNDRWYTH_MOST_STEPS + 2];
    uint32_t answer[UNDRWYTH_HULL_ANSWER_WORDS];
    if (undrwyth_hull(record.x, record.y, walk.steps, of_walk(UNDRWYTH_WALK_STEPS), out, sizeof out / sizeof *out, answer) != 0)
        return refuse(&record, answer[UNDRWYTH_HULL_NUMBER], answer[UNDRWYTH_HULL_PLACE]);
    uint32_t count = answer[UNDRWYTH_HULL_COUNT];
    char sentence[32];
    snprintf(sentence, sizeof sentence, "%u corner%s", (unsigned)count, count == 1 ? "" : "s");
    begin_row(&record);
    fact(count);
    fact_list(out, count, UNDRWYTH_CORNER_NUMBERS);
    if (form != SENTENCES) {
        end_row(sentence);
        return 1;
    }
    put(sentence);
    put(":");
    for (uint32_t i = 0; i < count; i++) {
        put(" (");
        put_number(out[2 * i]);
        put(",");
        put_number(out[2 * i + 1]);
        put(")");
    }
    put("\n");
    return 1;
}

int hull(void) {
    static const char *const facts[] = {"count", "corners", NULL};
    return answer_each(facts, hulled);
}

static int told_convex(void) {
    uint32_t answer[UNDRWYTH_CONVEX_ANSWER_WORDS];
    if (undrwyth_convex(record.x, record.y, walk.steps, of_walk(UNDRWYTH_WALK_STEPS), answer) != 0)
        return refuse(&record, answer[UNDRWYTH_CONVEX_NUMBER], answer[UNDRWYTH_CONVEX_PLACE]);
    begin_row(&record);
    fact_truth(answer[UNDRWYTH_CONVEX_YES] == 1);
    end_row(undrwyth_convex_word(answer));
    return 1;
}

int convex(void) {
    static const char *const facts[] = {"convex", NULL};
    return answer_each(facts, told_convex);
}

unsigned long grid_size = 1;

static int hulled_by_blocks(void) {
    static uint8_t out[UNDRWYTH_MOST_STEPS];
    uint32_t answer[UNDRWYTH_ORTHOGONAL_ANSWER_WORDS], n = of_walk(UNDRWYTH_WALK_STEPS);
    if (undrwyth_orthogonal_hull(record.x, record.y, walk.steps, n, (uint32_t)grid_size, out, sizeof out, answer) != 0)
        return refuse(&record, answer[UNDRWYTH_ORTHOGONAL_NUMBER], answer[UNDRWYTH_ORTHOGONAL_PLACE]);
    uint32_t steps = answer[UNDRWYTH_ORTHOGONAL_STEPS];
    int32_t x = (int32_t)answer[UNDRWYTH_ORTHOGONAL_START_X], y = (int32_t)answer[UNDRWYTH_ORTHOGONAL_START_Y];
    as_digits(out, steps);
    if (form == SENTENCES) {
        put_chain(x, y, out, steps);
        return 1;
    }
    char sentence[UNDRWYTH_SENTENCE_BYTES];
    undrwyth_orthogonal_sentence(sentence, sizeof sentence, (uint32_t)grid_size, answer);
    record.x = x;
    record.y = y;
    begin_row(&record);
    fact((long long)grid_size);
    fact(answer[UNDRWYTH_ORTHOGONAL_BLOCKS]);
    fact(steps);
    fact_text(out, steps);
    end_row(sentence);
    return 1;
}

int orthogonal(void) {
    static const char *const facts[] = {"grid", "blocks", "steps", "chain", NULL};
    return answer_each(facts, hulled_by_blocks);
}

/* The rows of a room: a line for each span, but JSON has one for each record. */
static int spanned(void) {
    static int32_t out[3 * UNDRWYTH_MOST_STEPS / 2];
    uint32_t answer[UNDRWYTH_ROWS_ANSWER_WORDS];
    if (undrwyth_rows(record.x, record.y, walk.steps, of_walk(UNDRWYTH_WALK_STEPS), out, sizeof out / sizeof *out, answer) != 0)
        return refuse(&record, answer[UNDRWYTH_ROWS_NUMBER], answer[UNDRWYTH_ROWS_PLACE]);
    if (form == JSON) {
        begin_row(&record);
        fact_list(out, answer[UNDRWYTH_ROWS_SPANS], UNDRWYTH_SPAN_NUMBERS);
        end_row(record.sentence);
        return 1;
    }
    for (const int32_t *span = out, *end = out + 3 * answer[UNDRWYTH_ROWS_SPANS]; span < end; span += 3) {
        char sentence[96];
        if (span[1] == span[2]) snprintf(sentence, sizeof sentence, "row %d, panel %d", (int)span[0], (int)span[1]);
        else snprintf(sentence, sizeof sentence, "row %d, panels %d to %d", (int)span[0], (int)span[1], (int)span[2]);
        begin_row(&record);
        for (int i = 0; i < 3; i++) fact(span[i]);
        end_row(sentence);
    }
    return 1;
}

int spans(void) {
    static const char *const facts[] = {"row", "first", "last", NULL}, *const list[] = {"spans", NULL};
    return answer_each(form == JSON ? list : facts, spanned);
}

/* The value of a hexadecimal digit of either case, or -1. */
static int value(unsigned char c) {
    if ('0' <= c && c <= '9') return c - '0';
    if ('a' <= c && c <= 'f') return c - 'a' + 10;
    return 'A' <= c && c <= 'F' ? c - 'A' + 10 : -1;
}

static void add_words(const char *words) {
    size_t n = strlen(record.sentence);
    snprintf(record.sentence + n, sizeof record.sentence - n, "%s", words);
}

/* A number of four bytes, of the file's byte order. */
static uint32_t word(const uint8_t *at, int little) {
    return little ? at[0] | (uint32_t)at[1] << 8 | (uint32_t)at[2] << 16 | (uint32_t)at[3] << 24
                  : at[3] | (uint32_t)at[2] << 8 | (uint32_t)at[1] << 16 | (uint32_t)at[0] << 24;
}

/* How far a coordinate is from the nearest whole multiple of 600; 600 if it is far out or not a number. */
static double off_grid(const uint8_t *at, int little) {
    uint64_t bits = little ? (uint64_t)word(at + 4, 1) << 32 | word(at, 1) : (uint64_t)word(at, 0) << 32 | word(at + 4, 0);
    double number;
    memcpy(&number, &bits, sizeof number);
    if (number < 0) number = -number;
    if (!(number < 1e9)) return 600;
    number -= 600 * (double)(long)(number / 600);
    return number > 300 ? 600 - number : number;
}

/* What is to be done with a polygon that is refused, if something is known to help. */
static void advise(const uint8_t *file, size_t n, uint32_t number) {
    char words[160];
    if (n < UNDRWYTH_POLYGON_HEADER_BYTES || file[0] > 1) return;
    uint32_t type = word(file + 1, file[0]), base = (type & 0xffff) % 1000;
    if (number == UNDRWYTH_REFUSAL_FILE_KIND && base == 6) add_words(". It is a MultiPolygon: ogr2ogr -explodecollections takes it apart");
    else if (number == UNDRWYTH_REFUSAL_FILE_KIND && base == 3 && type != 3) add_words(". It has heights, measures or a number of a reference system: ogr2ogr -dim XY leaves them out");
    else if (number == UNDRWYTH_REFUSAL_FILE_KIND && type == 3) add_words(". It has holes");
    if (number != UNDRWYTH_REFUSAL_BAD_COORDINATE) return;
    double most = 0;
    for (size_t i = UNDRWYTH_POLYGON_HEADER_BYTES; i < n; i += 8) {
        double off = off_grid(file + i, file[0]);
        if (off > most) most = off;
    }
    if (most == 0 || most > 30) return; /* what is farther off may be another corner */
    snprintf(words, sizeof words, ". The farthest is %.3g mm off the grid: snap the points to a grid of 600", most);
    add_words(words);
}

/* Reads the line's polygon, KEY,HEXADECIMAL or HEXADECIMAL: whether it is accepted. */
static int read_polygon(uint8_t *out, size_t room, uint32_t *answer) {
    static uint8_t file[1 << 19];
    size_t n = record.line_size, at = 0;
    for (size_t i = 0; i < n; i++)
        if (record.line[i] == ',') at = i + 1;
    record.key_size = at > 0 ? at - 1 : 0;
    record.keyed = record.key_size > 0;
    record.digits = record.line + at;
    n -= at;
    if (long_line || n > 2 * sizeof file) {
        refuse(&record, UNDRWYTH_REFUSAL_TOO_MANY, 0);
        snprintf(record.sentence, sizeof record.sentence, "the line is longer than that of any polygon of 16,384 steps");
        return 0;
    }
    for (size_t i = 0; i < n; i++) {
        if (value(record.digits[i]) < 0) {
            char fault[UNDRWYTH_FAULT_BYTES];
            undrwyth_text_fault(fault, record.digits + i, n - i);
            record.refusal = UNDRWYTH_REFUSAL_FILE_LENGTH;
            snprintf(record.sentence, sizeof record.sentence, "the line is not hexadecimal: %s stands at place %zu", fault, i);
            return 0;
        }
    }
    if (n % 2 != 0) {
        record.refusal = UNDRWYTH_REFUSAL_FILE_LENGTH;
        snprintf(record.sentence, sizeof record.sentence, "the line is not hexadecimal: a byte has two digits, and the last has one");
        return 0;
    }
    for (size_t i = 0; 2 * i < n; i++) file[i] = (uint8_t)(16 * value(record.digits[2 * i]) + value(record.digits[2 * i + 1]));
    if (undrwyth_chain_of_polygon(file, n / 2, out, room, answer) == 0) return 1;
    refuse(&record, answer[UNDRWYTH_CHAIN_NUMBER], answer[UNDRWYTH_CHAIN_PLACE]);
    advise(file, n / 2, record.refusal);
    return 0;
}

int chains(void) {
    static uint8_t out[UNDRWYTH_MOST_STEPS];
    uint32_t answer[UNDRWYTH_CHAIN_ANSWER_WORDS];
    int got;
    begin_table(chain_facts);
    while ((got = next_line(0, &record)) > 0)
        if (read_polygon(out, sizeof out, answer))
            chain_row((int32_t)answer[UNDRWYTH_CHAIN_START_X], (int32_t)answer[UNDRWYTH_CHAIN_START_Y], out, answer[UNDRWYTH_CHAIN_STEPS]);
        else put_refused(&record);
    return end_of_input(got);
}
