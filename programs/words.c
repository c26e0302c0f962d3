/* SPDX-License-Identifier: MIT
 * The answers of the library's calls in words: words.h. */
#include "words.h"

#include <string.h>

/* A sentence under way: its length so far. As much of it as fits was written. */
struct sentence {
    char *out;
    size_t room, length;
};

static void add_bytes(struct sentence *s, const char *text, size_t n) {
    if (s->length + 1 < s->room) {
        size_t left = s->room - s->length - 1;
        memcpy(s->out + s->length, text, n < left ? n : left);
    }
    s->length += n;
}

static void add(struct sentence *s, const char *text) {
    add_bytes(s, text, strlen(text));
}

static void add_number(struct sentence *s, uint32_t number) {
    char digits[10];
    size_t at = sizeof digits;
    do digits[--at] = (char)('0' + number % 10);
    while ((number /= 10) > 0);
    add_bytes(s, digits + at, sizeof digits - at);
}

static uint32_t magnitude(int32_t number) {
    return number < 0 ? 0 - (uint32_t)number : (uint32_t)number;
}

static void add_corner(struct sentence *s, int32_t x, int32_t y) {
    add(s, x < 0 ? "(-" : "(");
    add_number(s, magnitude(x));
    add(s, y < 0 ? ",-" : ",");
    add_number(s, magnitude(y));
    add(s, ")");
}

/* "1 step", "20 steps" */
static void add_count(struct sentence *s, uint32_t count, const char *thing) {
    add_number(s, count);
    add(s, " ");
    add(s, thing);
    if (count != 1) add(s, "s");
}

static size_t ended(struct sentence *s) {
    if (s->room > 0) s->out[s->length < s->room ? s->length : s->room - 1] = 0;
    return s->length;
}

static void add_meeting(struct sentence *s, int32_t x, int32_t y, const uint8_t *chain, uint32_t j, uint32_t k) {
    for (uint32_t i = 0; i < k; i++) {
        x += (chain[i] == 0) - (chain[i] == 2);
        y += (chain[i] == 1) - (chain[i] == 3);
    }
    add(s, " and crossed: step ");
    add_number(s, k);
    add(s, " comes back to ");
    add_corner(s, x, y);
    if (j == 0) {
        add(s, ", where the walk began");
        return;
    }
    add(s, ", where step ");
    add_number(s, j);
    add(s, " was");
}

size_t undrwyth_walk_sentence(char *out, size_t room, int32_t x, int32_t y, const uint8_t *chain,
                              const uint32_t answer[UNDRWYTH_WALK_ANSWER_WORDS]) {
    struct sentence s = {out, room, 0};
    uint32_t steps = answer[UNDRWYTH_WALK_STEPS], j = answer[UNDRWYTH_WALK_J], k = answer[UNDRWYTH_WALK_K];
    int32_t area = (int32_t)answer[UNDRWYTH_WALK_AREA];
    switch (answer[UNDRWYTH_WALK_VERDICT]) {
    case UNDRWYTH_VERDICT_NOWHERE:
        add(&s, "no step survives");
        break;
    case UNDRWYTH_VERDICT_OPEN:
        add(&s, "open: ");
        add_count(&s, steps, "step");
        add(&s, ", from ");
        add_corner(&s, x, y);
        add(&s, " to ");
        add_corner(&s, (int32_t)answer[UNDRWYTH_WALK_LAST_X], (int32_t)answer[UNDRWYTH_WALK_LAST_Y]);
        break;
    case UNDRWYTH_VERDICT_ROOM:
        add(&s, "a room of ");
        add_count(&s, magnitude(area), "panel");
        add(&s, ", ");
        add_count(&s, steps, "step");
        add(&s, area > 0 ? ", counterclockwise" : ", clockwise");
        break;
    case UNDRWYTH_VERDICT_OPEN_MEETING:
        add(&s, "open");
        add_meeting(&s, x, y, chain, j, k);
        break;
    case UNDRWYTH_VERDICT_CLOSED_MEETING:
        add(&s, "closed");
        add_meeting(&s, x, y, chain, j, k);
        break;
    case UNDRWYTH_VERDICT_THERE_AND_BACK:
        add(&s, "there and back, which is not a room");
        break;
    }
    return ended(&s);
}

/* The sentences of refusals; # stands for the place. Those of a bad digit and of an unknown party are made below. */
static const char *const refusals[] = {
    [UNDRWYTH_REFUSAL_TOO_MANY] = "the input has more than 32,768 bytes",
    [UNDRWYTH_REFUSAL_TABLE] = "the lent table does not have a whole number of records, or has none, or too many",
    [UNDRWYTH_REFUSAL_RESULT_ROOM] = "a lent buffer does not have the length that the input asks for",
    [UNDRWYTH_REFUSAL_NOTHING_TO_TAKE] = "the operation at place # takes a step back, and no step is left",
    [UNDRWYTH_REFUSAL_TOO_LONG] = "the step at place # would be the 16,385th that survives",
    [UNDRWYTH_REFUSAL_NO_ROOM] = "the table has too few records for the operation at place #",
    [UNDRWYTH_REFUSAL_HULL_ROOM] = "the lent buffer is shorter than two numbers for each hull corner",
    [UNDRWYTH_REFUSAL_BAD_LINE] = "the line is not a record",
    [UNDRWYTH_REFUSAL_START_RANGE] = "a coordinate of the start is beyond 16,384",
    [UNDRWYTH_REFUSAL_OUTLINE_ROOM] = "the lent buffer is shorter than the outline",
    [UNDRWYTH_REFUSAL_NOT_ROOM] = "the walk is not a room",
    [UNDRWYTH_REFUSAL_POLYGON_ROOM] = "the lent buffer is shorter than the polygon",
    [UNDRWYTH_REFUSAL_FILE_LENGTH] = "the file does not have 13 bytes and 16 for each point",
    [UNDRWYTH_REFUSAL_FILE_KIND] = "the file is not a polygon of one ring: its byte order, type or ring count is another",
    [UNDRWYTH_REFUSAL_BAD_COORDINATE] = "a coordinate is not a whole multiple of 600, or is too far out",
    [UNDRWYTH_REFUSAL_BAD_RING] = "the ring has a slant, a repeated point or fewer than four points, or is not closed",
    [UNDRWYTH_REFUSAL_CHAIN_ROOM] = "the lent buffer is shorter than the chain",
    [UNDRWYTH_REFUSAL_RETIRED_KIND] = "the record has turns, which are retired; convert changes them to steps",
    [UNDRWYTH_REFUSAL_SPAN_ROOM] = "a lent buffer is shorter than three numbers for each span",
    [UNDRWYTH_REFUSAL_GRID_SIZE] = "the grid size is not a number from 1 to 16,384",
};

enum { REFUSALS = sizeof refusals / sizeof *refusals };

size_t undrwyth_refusal_sentence(char *out, size_t room, uint32_t number, uint32_t place, const char *fault, unsigned most) {
    struct sentence s = {out, room, 0};
    const char *text = number < REFUSALS ? refusals[number] : NULL;
    if (number == UNDRWYTH_REFUSAL_BAD_DIGIT || number == UNDRWYTH_REFUSAL_UNKNOWN_PARTY) {
        add(&s, fault != NULL ? fault : "the byte");
        add(&s, " at place ");
        add_number(&s, place);
        if (number == UNDRWYTH_REFUSAL_UNKNOWN_PARTY) add(&s, " is of neither party");
        else {
            add(&s, " is not a digit from 0 to ");
            add_number(&s, most);
        }
    } else if (text == NULL) {
        add(&s, "refusal ");
        add_number(&s, number);
    } else {
        const char *mark = strchr(text, '#');
        add_bytes(&s, text, mark != NULL ? (size_t)(mark - text) : strlen(text));
        if (mark != NULL) {
            add_number(&s, place);
            add(&s, mark + 1);
        }
    }
    return ended(&s);
}

void undrwyth_byte_fault(char out[UNDRWYTH_FAULT_BYTES], unsigned byte) {
    struct sentence s = {out, UNDRWYTH_FAULT_BYTES, 0};
    add(&s, "byte ");
    add_number(&s, byte);
    ended(&s);
}

/* How many bytes the first character of the text has if it is one of UTF-8 that a terminal may be given; 0 otherwise. */
static size_t shown(const uint8_t *text, size_t n) {
    static const uint32_t least[] = {0, 0, 0xa0, 0x800, 0x10000};
    uint8_t first = text[0];
    size_t size = first < 0x80 ? 1 : first >= 0xc2 && first < 0xe0 ? 2 : first >= 0xe0 && first < 0xf0 ? 3 : first >= 0xf0 && first < 0xf5 ? 4 : 0;
    if (size == 0 || size > n) return 0;
    if (size == 1) return first >= 0x20 && first < 0x7f;
    uint32_t character = first & (0x7fu >> size);
    for (size_t i = 1; i < size; i++) {
        if ((text[i] & 0xc0) != 0x80) return 0;
        character = character << 6 | (text[i] & 0x3f);
    }
    return character >= least[size] && character < 0x110000 && (character < 0xd800 || character >= 0xe000) ? size : 0;
}

void undrwyth_text_fault(char out[UNDRWYTH_FAULT_BYTES], const uint8_t *text, size_t n) {
    static const char hexadecimal[] = "0123456789abcdef";
    struct sentence s = {out, UNDRWYTH_FAULT_BYTES, 0};
    if (n == 0) {
        add(&s, "the byte");
        ended(&s);
        return;
    }
    if (text[0] >= '0' && text[0] <= '9') {
        undrwyth_byte_fault(out, text[0] - (unsigned)'0');
        return;
    }
    size_t size = shown(text, n);
    const char *quote = text[0] == '\'' ? "\"" : "'";
    add(&s, quote);
    if (text[0] == '\\') add(&s, "\\\\");
    else if (size > 0) add_bytes(&s, (const char *)text, size);
    else if (text[0] == '\t') add(&s, "\\t");
    else if (text[0] == '\r') add(&s, "\\r");
    else if (text[0] == '\n') add(&s, "\\n");
    else {
        char escape[] = {'\\', 'x', hexadecimal[text[0] >> 4], hexadecimal[text[0] & 15]};
        add_bytes(&s, escape, sizeof escape);
    }
    add(&s, quote);
    ended(&s);
}

size_t undrwyth_overlay_sentence(char *out, size_t room, const uint32_t answer[UNDRWYTH_OVERLAY_ANSWER_WORDS]) {
    struct sentence s = {out, room, 0};
    add_count(&s, answer[UNDRWYTH_OVERLAY_FIRST_PANELS], "panel");
    add(&s, " in the first only, ");
    add_count(&s, answer[UNDRWYTH_OVERLAY_SECOND_PANELS], "panel");
    add(&s, " in the second only, ");
    add_count(&s, answer[UNDRWYTH_OVERLAY_BOTH_PANELS], "panel");
    add(&s, " in both");
    return ended(&s);
}

size_t undrwyth_orthogonal_sentence(char *out, size_t room, uint32_t grid, const uint32_t answer[UNDRWYTH_ORTHOGONAL_ANSWER_WORDS]) {
    struct sentence s = {out, room, 0};
    add(&s, "an orthogonal hull of ");
    add_count(&s, answer[UNDRWYTH_ORTHOGONAL_BLOCKS], grid == 1 ? "panel" : "block");
    if (grid != 1) {
        add(&s, " of ");
        add_number(&s, grid);
        add(&s, " by ");
        add_number(&s, grid);
        add(&s, " panels");
    }
    add(&s, ", ");
    add_count(&s, answer[UNDRWYTH_ORTHOGONAL_STEPS], "step");
    return ended(&s);
}

const char *undrwyth_convex_word(const uint32_t answer[UNDRWYTH_CONVEX_ANSWER_WORDS]) {
    return answer[UNDRWYTH_CONVEX_YES] == 1 ? "convex" : "not convex";
}

static const char *const verdict_names[] = {"nowhere", "open", "room", "open_meeting", "closed_meeting", "there_and_back"};

const char *undrwyth_verdict_name(uint32_t verdict) {
    return verdict < sizeof verdict_names / sizeof *verdict_names ? verdict_names[verdict] : "unknown";
}

static const char *const refusal_names[] = {
    "accepted", "too_many", "table", "result_room", "bad_digit", "nothing_to_take", "too_long", "no_room", "hull_room", "bad_line", "start_range",
    "outline_room", "not_room", "polygon_room", "file_length", "file_kind", "bad_coordinate", "bad_ring", "chain_room", "retired_kind", "unknown_party",
    "span_room", "grid_size",
};

const char *undrwyth_refusal_name(uint32_t number) {
    return number < sizeof refusal_names / sizeof *refusal_names ? refusal_names[number] : "unknown";
}
