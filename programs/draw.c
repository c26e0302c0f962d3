/* SPDX-License-Identifier: MIT
 * Draws a record, or two rooms laid over each other, as SVG: what the proved library answers. Nothing is judged here. */
#define _XOPEN_SOURCE 700
#include <stdarg.h>
#include <stdio.h>
#include <string.h>

#include "command.h"
#include "output.h"
#include "rooms.h"

enum {
    SIDE = 40,      /* pixels of a panel's side */
    WORDS = 24,     /* pixels of each line of words below the grid, */
    LETTER = 8,     /* and of a letter's width */
    LARGEST = 1600  /* pixels of the picture's longer side, unless it has few panels */
};

/* A walk that is drawn: its corners, from p0 on. */
struct drawn {
    struct record record;
    struct walk walk;
    int32_t corners[UNDRWYTH_MOST_STEPS + 1][2];
};
static struct drawn one, two;
static struct overlay laid;
static int32_t hull_corners[UNDRWYTH_MOST_STEPS + 1][2];
static uint32_t hull_answer[UNDRWYTH_HULL_ANSWER_WORDS];
/* The orthogonal hull, if it is asked for: its corners, in blocks, what was answered, and a sentence. */
int with_hull;
static int32_t around[UNDRWYTH_MOST_STEPS + 1][2];
static uint32_t around_answer[UNDRWYTH_ORTHOGONAL_ANSWER_WORDS];
static char around_words[UNDRWYTH_SENTENCE_BYTES];
/* The picture: the west and the north edge of the grid, from which the pixels of a corner are reckoned, and its size. */
static int west, east, south, north, width, height;

/* Writes to standard output; a piece has at most 400 bytes. */
static void write_out(const char *format, ...) __attribute__((format(printf, 1, 2)));
static void write_out(const char *format, ...) {
    char piece[400];
    va_list words;
    va_start(words, format);
    vsnprintf(piece, sizeof piece, format, words);
    va_end(words);
    put(piece);
}

/* Widens the picture by a corner. */
static void widen(int x, int y) {
    if (x < west) west = x;
    if (x > east) east = x;
    if (y < south) south = y;
    if (y > north) north = y;
}

/* The corners of the walk of n steps from (x,y). */
static void corners_of(int32_t x, int32_t y, const uint8_t *steps, uint32_t n, int32_t (*corners)[2]) {
    for (uint32_t i = 0;; i++) {
        corners[i][0] = x;
        corners[i][1] = y;
        if (i == n) return;
        x += (steps[i] == 0) - (steps[i] == 2);
        y += (steps[i] == 1) - (steps[i] == 3);
    }
}

/* Finds the walk's corners, and widens the picture by them. */
static void follow(struct drawn *drawn, int first) {
    int x = drawn->record.x, y = drawn->record.y;
    if (first) {
        west = east = x;
        south = north = y;
    }
    uint32_t n = drawn->walk.answer[UNDRWYTH_WALK_STEPS];
    corners_of(x, y, drawn->walk.steps, n, drawn->corners);
    for (uint32_t i = 0; i <= n; i++) widen(drawn->corners[i][0], drawn->corners[i][1]);
}

/* Finds the orthogonal hull of the room: whether it is accepted. Its corners become those of panels. */
static int find_hull(void) {
    static uint8_t out[UNDRWYTH_MOST_STEPS];
    struct record *record = &one.record;
    uint32_t *answer = around_answer, grid = (uint32_t)grid_size;
    if (undrwyth_orthogonal_hull(record->x, record->y, one.walk.steps, one.walk.answer[UNDRWYTH_WALK_STEPS], grid, out, sizeof out, answer) != 0)
        return refuse(record, answer[UNDRWYTH_ORTHOGONAL_NUMBER], answer[UNDRWYTH_ORTHOGONAL_PLACE]);
    undrwyth_orthogonal_sentence(around_words, sizeof around_words, grid, answer);
    corners_of((int32_t)answer[UNDRWYTH_ORTHOGONAL_START_X], (int32_t)answer[UNDRWYTH_ORTHOGONAL_START_Y], out, answer[UNDRWYTH_ORTHOGONAL_STEPS], around);
    for (uint32_t i = 0; i <= answer[UNDRWYTH_ORTHOGONAL_STEPS]; i++)
        for (int axis = 0; axis < 2; axis++) around[i][axis] *= (int32_t)grid;
    return 1;
}

/* One panel more than the walks on each side. */
static void frame(void) {
    west--;
    north++;
    width = (east + 1 - west) * SIDE;
    height = (north - south + 1) * SIDE;
}

static int pixel_x(int x) {
    return (x - west) * SIDE;
}

static int pixel_y(int y) {
    return (north - y) * SIDE;
}

/* A list of pixels, as SVG has it. */
static void points(int32_t (*list)[2], size_t n) {
    for (size_t i = 0; i < n; i++) write_out("%s%d,%d", i == 0 ? "" : " ", pixel_x(list[i][0]), pixel_y(list[i][1]));
}

static void panels(const int32_t *spans, uint32_t count, const char *colour) {
    for (const int32_t *span = spans; span < spans + 3 * count; span += 3)
        write_out("<rect x=\"%d\" y=\"%d\" width=\"%d\" height=\"%d\" fill=\"%s\"/>\n", pixel_x(span[1]), pixel_y(span[0] + 1),
                  (span[2] - span[1] + 1) * SIDE, SIDE, colour);
}

/* The head of the picture, with its words as its title, and the ground, which is wide enough for the words below the grid. A large
 * picture is shown smaller. */
static void begin(const char *title, int lines, size_t longest) {
    int tall = height + lines * WORDS, words_wide = 16 + LETTER * (int)longest, wide = width > words_wide ? width : words_wide;
    int longer = wide > tall ? wide : tall;
    double scale = longer > LARGEST ? (double)LARGEST / longer : 1;
    write_out("<svg xmlns=\"http://www.w3.org/2000/svg\" width=\"%d\" height=\"%d\" viewBox=\"0 0 %d %d\" font-family=\"sans-serif\" font-size=\"14\">\n",
              (int)(wide * scale), (int)(tall * scale), wide, tall);
    write_out("<title>%s</title>\n<rect width=\"%d\" height=\"%d\" fill=\"#ffffff\"/>\n", title, wide, tall);
}

static void grid(void) {
    put("<path d=\"");
    for (int x = 0; x <= width; x += SIDE) write_out("%sM%d,0V%d", x == 0 ? "" : " ", x, height);
    for (int y = 0; y <= height; y += SIDE) write_out(" M0,%dH%d", y, width);
    put("\" stroke=\"#bbbbbb\"/>\n");
}

/* The orthogonal hull as a ground, below the panels of the room. */
static void hull_ground(void) {
    put("<polygon points=\"");
    points(around, around_answer[UNDRWYTH_ORTHOGONAL_STEPS]);
    put("\" fill=\"#fbe3c0\"/>\n");
}

/* The lines between blocks of more than one panel, and the hull as a line. */
static void hull_line(void) {
    int by = (int)grid_size, first_x = around[0][0], first_y = around[0][1];
    while (first_x - by >= west) first_x -= by;
    while (first_y + by <= north) first_y += by;
    if (by > 1) {
        put("<path d=\"");
        for (int x = first_x; pixel_x(x) <= width; x += by) write_out("M%d,0V%d ", pixel_x(x), height);
        for (int y = first_y; pixel_y(y) <= height; y -= by) write_out("M0,%dH%d ", pixel_y(y), width);
        put("\" stroke=\"#888888\" stroke-width=\"2\"/>\n");
    }
    put("<polygon points=\"");
    points(around, around_answer[UNDRWYTH_ORTHOGONAL_STEPS]);
    put("\" fill=\"none\" stroke=\"#c26a00\" stroke-width=\"7\" stroke-linejoin=\"round\"/>\n");
}

/* The walk, an arrow for each of its steps, and a dot where it starts. */
static void line(struct drawn *drawn, const char *colour) {
    uint32_t n = drawn->walk.answer[UNDRWYTH_WALK_STEPS];
    put("<polyline points=\"");
    points(drawn->corners, n + 1);
    write_out("\" fill=\"none\" stroke=\"%s\" stroke-width=\"3\" stroke-linejoin=\"round\"/>\n", colour);
    for (uint32_t i = 0; i < n; i++)
        write_out("<path d=\"M16,-6 L28,0 L16,6 Z\" fill=\"%s\" transform=\"translate(%d,%d) rotate(%d)\"/>\n", colour, pixel_x(drawn->corners[i][0]),
                  pixel_y(drawn->corners[i][1]), (360 - 90 * drawn->walk.steps[i]) % 360);
    write_out("<circle cx=\"%d\" cy=\"%d\" r=\"6\" fill=\"%s\"/>\n", pixel_x(drawn->record.x), pixel_y(drawn->record.y), colour);
}

/* The words below the grid, line by line. */
static void words(int number, const char *text, const char *colour) {
    write_out("<text x=\"8\" y=\"%d\" fill=\"%s\">%s</text>\n", height + 14 + WORDS * number, colour, text);
}

/* Whether undrwyth judge would refuse what is drawn, in words. */
static const char *judged(const struct record *record) {
    if (record->count > UNDRWYTH_MOST_LINE_DIGITS) return "undrwyth judge refuses this walk with 9: its records have at most 1,024 operations";
    return judge_lacks_records(record) ? "undrwyth judge refuses this record with 7: its table has 320 nodes" : NULL;
}

/* The sentence of a refusal: the status. */
static int say_refused(const struct record *record) {
    return fail("line %llu is refused: %s", record->number, record->sentence);
}

/* A picture of one record, with a note below it or none. */
static int draw_one(const char *note) {
    static int32_t spans[3 * UNDRWYTH_MOST_STEPS / 2];
    uint32_t rows[UNDRWYTH_ROWS_ANSWER_WORDS] = {0}, n = one.walk.answer[UNDRWYTH_WALK_STEPS];
    int room = one.walk.answer[UNDRWYTH_WALK_VERDICT] == UNDRWYTH_VERDICT_ROOM;
    struct record *record = &one.record;
    if (undrwyth_hull(record->x, record->y, one.walk.steps, n, hull_corners[0], 2 * n + 2, hull_answer) != 0)
        refuse(record, hull_answer[UNDRWYTH_HULL_NUMBER], hull_answer[UNDRWYTH_HULL_PLACE]);
    else if (room && undrwyth_rows(record->x, record->y, one.walk.steps, n, spans, sizeof spans / sizeof *spans, rows) != 0)
        refuse(record, rows[UNDRWYTH_ROWS_NUMBER], rows[UNDRWYTH_ROWS_PLACE]);
    if (record->refusal == 0 && with_hull) find_hull();
    if (record->refusal != 0) return say_refused(record);
    follow(&one, 1);
    for (uint32_t i = 0; with_hull && i < around_answer[UNDRWYTH_ORTHOGONAL_STEPS]; i++) widen(around[i][0], around[i][1]);
    frame();
    const char *lines[] = {record->sentence, around_words, note};
    size_t longest = 0;
    int count = 0;
    for (int i = 0; i < 3; i++) {
        size_t n = lines[i] != NULL ? strlen(lines[i]) : 0;
        longest = n > longest ? n : longest;
        count += n > 0;
    }
    begin(record->sentence, count, longest);
    if (with_hull) hull_ground();
    panels(spans, rows[UNDRWYTH_ROWS_SPANS], "#cfe8cf");
    grid();
    if (with_hull) hull_line();
    else {
        put("<polygon points=\"");
        points(hull_corners, hull_answer[UNDRWYTH_HULL_COUNT]);
        put("\" fill=\"none\" stroke=\"#3366cc\" stroke-dasharray=\"6 4\"/>\n");
    }
    line(&one, "#222222");
    if (one.walk.answer[UNDRWYTH_WALK_K] != UNDRWYTH_NO_MEETING) {
        uint32_t j = one.walk.answer[UNDRWYTH_WALK_J], k = one.walk.answer[UNDRWYTH_WALK_K];
        const int32_t *at = one.corners[j];
        write_out("<circle cx=\"%d\" cy=\"%d\" r=\"10\" fill=\"none\" stroke=\"#cc2222\" stroke-width=\"3\"/>\n", pixel_x(at[0]), pixel_y(at[1]));
        write_out("<text x=\"%d\" y=\"%d\" fill=\"#cc2222\">%u, %u</text>\n", pixel_x(at[0]) + 10, pixel_y(at[1]) - 12, (unsigned)j, (unsigned)k);
    }
    words(0, record->sentence, "#222222");
    if (with_hull) words(1, around_words, "#8a4b00");
    if (note != NULL) {
        words(count - 1, note, "#cc2222");
        fail("%s", note);
    }
    put("</svg>\n");
    return WHOLE;
}

/* A picture of two rooms laid over each other. */
static int draw_two(void) {
    if (!is_room(&one.record, &one.walk)) return say_refused(&one.record);
    if (!is_room(&two.record, &two.walk)) return say_refused(&two.record);
    if (!lay_over(&one.record, &one.walk, &two.record, &two.walk, &laid)) return say_refused(&one.record);
    static const char *const colours[] = {"#cfe8cf", "#cfdcf4", "#f6dfa8"};
    follow(&one, 1);
    follow(&two, 0);
    frame();
    begin(one.record.sentence, 3, 20);
    for (int i = 0; i < 3; i++) panels(laid.spans[i], laid.answer[UNDRWYTH_OVERLAY_FIRST_SPANS + i], colours[i]);
    grid();
    line(&one, "#2f7d32");
    line(&two, "#2b4fa8");
    char text[96];
    snprintf(text, sizeof text, "first only: %u", (unsigned)laid.answer[UNDRWYTH_OVERLAY_FIRST_PANELS]);
    words(0, text, "#2f7d32");
    snprintf(text, sizeof text, "second only: %u", (unsigned)laid.answer[UNDRWYTH_OVERLAY_SECOND_PANELS]);
    words(1, text, "#2b4fa8");
    snprintf(text, sizeof text, "both: %u", (unsigned)laid.answer[UNDRWYTH_OVERLAY_BOTH_PANELS]);
    words(2, text, "#8a5a00");
    put("</svg>\n");
    return WHOLE;
}

int draw(void) {
    static struct record third;
    int got = next_walk(0, &one.record, &one.walk), more = 0;
    if (got == 0) return not_written() ? written() : fail("the input has no line");
    if (got < 0) return end_of_input(got);
    if (one.record.refusal != 0) return say_refused(&one.record);
    const char *note = judged(&one.record); /* its digits stand in the reader's buffer until more is read */
    two.record.number = one.record.number;
    more = next_walk(0, &two.record, &two.walk);
    if (more < 0) return end_of_input(more);
    third.number = two.record.number;
    if (more > 0 && next_line(0, &third) > 0) return fail("the input has more than two lines, and a picture is of one record, or of two rooms");
    if (more > 0 && two.record.refusal != 0) return say_refused(&two.record);
    if (more > 0 && with_hull) return fail("an orthogonal hull is drawn of one room, and the input has two lines");
    int status = more > 0 ? draw_two() : draw_one(note), ended = end_of_input(0);
    return status != WHOLE ? status : ended;
}
