/* SPDX-License-Identifier: MIT
 * Undrwyth in SQLite: a loadable extension over the proved library. docs/DATABASE.md has the functions. Nothing is judged here.
 *
 * Scalar functions are deterministic and innocuous, so that CHECK constraints, generated columns and indexes may use them. An argument that is NULL
 * gives NULL. A refusal is an error with its number, place and sentence; undrwyth_is_room gives 0 instead. */
#include <sqlite3ext.h>
#include <string.h>

#include "core.h"

SQLITE_EXTENSION_INIT1

/* ---- arguments and results ---- */

/* The bytes of a value: of a blob, or of a text. Others have none. */
static const uint8_t *bytes_of(sqlite3_value *value, size_t *n) {
    int type = sqlite3_value_type(value);
    const void *bytes = type == SQLITE_BLOB ? sqlite3_value_blob(value) : type == SQLITE_TEXT ? sqlite3_value_text(value) : NULL;
    *n = bytes != NULL ? (size_t)sqlite3_value_bytes(value) : 0;
    return bytes != NULL ? bytes : (const uint8_t *)"";
}

static int any_null(int count, sqlite3_value **given) {
    for (int i = 0; i < count; i++)
        if (sqlite3_value_type(given[i]) == SQLITE_NULL) return 1;
    return 0;
}

/* A coordinate; what does not fit becomes one that is beyond the range of a start. */
static int32_t coordinate(sqlite3_value *value) {
    sqlite3_int64 number = sqlite3_value_int64(value);
    return number > UNDRWYTH_MOST_START ? UNDRWYTH_MOST_START + 1 : number < -UNDRWYTH_MOST_START ? -UNDRWYTH_MOST_START - 1 : (int32_t)number;
}

static void result_refused(sqlite3_context *context, const struct refusal *why) {
    char message[MESSAGE_BYTES];
    say_refusal(message, why);
    char *whole = sqlite3_mprintf("undrwyth: %s", message);
    if (whole == NULL) {
        sqlite3_result_error_nomem(context);
        return;
    }
    sqlite3_result_error(context, whole, -1);
    sqlite3_free(whole);
}

/* A polygon has to be a blob; a text is refused as a file of another kind. */
static int take(struct room *room, sqlite3_value *value, struct refusal *why) {
    size_t n;
    const uint8_t *bytes = bytes_of(value, &n);
    if (sqlite3_value_type(value) != SQLITE_BLOB) return refused(why, UNDRWYTH_REFUSAL_FILE_KIND, 0, NULL);
    return take_polygon(room, bytes, n, 1, why);
}

static void result_facts(sqlite3_context *context, const int32_t facts[FACTS]) {
    sqlite3_str *text = sqlite3_str_new(sqlite3_context_db_handle(context));
    for (int i = 0; i < FACTS; i++) {
        sqlite3_str_appendf(text, "%s\"%s\":", i == 0 ? "{" : ",", fact_names[i]);
        if (has_fact(facts, i)) sqlite3_str_appendf(text, "%d", (int)facts[i]);
        else sqlite3_str_appendall(text, "null");
    }
    sqlite3_str_appendall(text, "}");
    int n = sqlite3_str_length(text);
    char *whole = sqlite3_str_finish(text);
    if (whole == NULL) sqlite3_result_error_nomem(context);
    else sqlite3_result_text(context, whole, n, sqlite3_free);
}

/* {"x":0,"y":0,"chain":"0123"}, or with something more before the last brace */
static void result_chain(sqlite3_context *context, struct room *room, const char *more) {
    for (size_t i = 0; i < room->steps; i++) room->chain[i] = (uint8_t)(room->chain[i] + '0');
    char *whole = sqlite3_mprintf("{\"x\":%d,\"y\":%d,\"chain\":\"%.*s\"%s}", (int)room->x, (int)room->y, (int)room->steps, (const char *)room->chain, more);
    if (whole == NULL) sqlite3_result_error_nomem(context);
    else sqlite3_result_text(context, whole, -1, sqlite3_free);
}

/* ---- functions on records ---- */

static void judge(sqlite3_context *context, int count, sqlite3_value **given) {
    int32_t facts[FACTS];
    size_t n;
    if (any_null(count, given)) return;
    const uint8_t *line = bytes_of(given[0], &n);
    judge_line(line, n, facts);
    result_facts(context, facts);
}

static void line(sqlite3_context *context, int count, sqlite3_value **given) {
    uint8_t out[UNDRWYTH_LINE_BYTES];
    size_t n;
    if (any_null(count, given)) return;
    const uint8_t *record = bytes_of(given[0], &n);
    sqlite3_result_text(context, (const char *)out, (int)undrwyth_line(record, n, out, sizeof out), SQLITE_TRANSIENT);
}

/* Walks a record in memory of its own: whether there was enough. */
static int walk_record(struct record *record, struct walk *walk) {
    size_t table = sizeof(uint32_t) * table_words(record), marks = sizeof(uint32_t) * marks_words(record), bytes = operation_bytes(record);
    unsigned char *room = sqlite3_malloc64(table + marks + 2 * bytes + 1);
    if (room == NULL) return 0;
    walk->table = (uint32_t *)(void *)room;
    walk->marks = (uint32_t *)(void *)(room + table);
    walk->bytes = room + table + marks;
    walk->steps = walk->bytes + bytes;
    walked(record, walk);
    sqlite3_free(room);
    return 1;
}

static void explain(sqlite3_context *context, int count, sqlite3_value **given) {
    struct record record = {0};
    struct walk walk;
    size_t n;
    if (any_null(count, given)) return;
    const uint8_t *text = bytes_of(given[0], &n);
    begin_record(&record, text, n);
    split_record(&record, EITHER);
    if (record.refusal == 0 && !walk_record(&record, &walk)) {
        sqlite3_result_error_nomem(context);
        return;
    }
    char *whole = sqlite3_mprintf("%s%s", record.refusal != 0 ? "refused: " : "", record.sentence);
    if (whole == NULL) sqlite3_result_error_nomem(context);
    else sqlite3_result_text(context, whole, -1, sqlite3_free);
}

static void walk_from(sqlite3_context *context, int count, sqlite3_value **given) {
    struct record record = {0};
    struct walk walk;
    int32_t facts[FACTS] = {0};
    size_t n;
    if (any_null(count, given)) return;
    const uint8_t *text = bytes_of(given[0], &n);
    begin_record(&record, text, n);
    record.count = n;
    if (count == 3) {
        record.x = coordinate(given[1]);
        record.y = coordinate(given[2]);
    }
    if (n > UNDRWYTH_MOST_INPUT_BYTES) facts[REFUSAL] = UNDRWYTH_REFUSAL_TOO_MANY;
    else if (!walk_record(&record, &walk)) {
        sqlite3_result_error_nomem(context);
        return;
    } else facts_of_walk(walk.answer, facts);
    result_facts(context, facts);
}

/* ---- functions on polygons ---- */

static void room_is(sqlite3_context *context, int count, sqlite3_value **given) {
    struct room room;
    struct refusal why;
    uint32_t convex;
    if (any_null(count, given)) return;
    sqlite3_result_int(context, take(&room, given[0], &why) && is_room(&room, &convex, &why));
}

static void convex(sqlite3_context *context, int count, sqlite3_value **given) {
    struct room room;
    struct refusal why;
    uint32_t yes;
    if (any_null(count, given)) return;
    if (!take(&room, given[0], &why) || !is_room(&room, &yes, &why)) result_refused(context, &why);
    else sqlite3_result_int(context, (int)yes);
}

/* The spans of a room, in memory that the caller frees; how many, or -1 after the error was given. */
static long spans_of(const struct room *room, int32_t **spans, uint32_t *panels, struct refusal *why) {
    *spans = sqlite3_malloc64(sizeof **spans * span_numbers(room, NULL) + 1);
    if (*spans == NULL) return refused(why, 0, 0, NULL) - 1;
    return room_rows(room, *spans, panels, why);
}

static void panels(sqlite3_context *context, int count, sqlite3_value **given) {
    struct room room;
    struct refusal why;
    int32_t *spans = NULL;
    uint32_t number;
    if (any_null(count, given)) return;
    if (!take(&room, given[0], &why) || spans_of(&room, &spans, &number, &why) < 0) {
        if (why.number == 0) sqlite3_result_error_nomem(context);
        else result_refused(context, &why);
    } else sqlite3_result_int64(context, number);
    sqlite3_free(spans);
}

static void chain(sqlite3_context *context, int count, sqlite3_value **given) {
    struct room room;
    struct refusal why;
    if (any_null(count, given)) return;
    if (!take(&room, given[0], &why)) result_refused(context, &why);
    else result_chain(context, &room, "");
}

static void outline(sqlite3_context *context, int count, sqlite3_value **given) {
    struct room room, around;
    struct refusal why;
    if (any_null(count, given)) return;
    if (!take(&room, given[0], &why) || !outline_of(&room, &around, &why)) result_refused(context, &why);
    else result_chain(context, &around, "");
}

static void orthogonal(sqlite3_context *context, int count, sqlite3_value **given) {
    struct room room, around;
    struct refusal why;
    uint32_t blocks;
    char more[32];
    if (any_null(count, given)) return;
    if (!take(&room, given[0], &why) || !orthogonal_of(&room, count > 1 ? sqlite3_value_int64(given[1]) : 1, &around, &blocks, &why)) {
        result_refused(context, &why);
        return;
    }
    sqlite3_snprintf(sizeof more, more, ",\"blocks\":%u", (unsigned)blocks);
    result_chain(context, &around, more);
}

static void polygon(sqlite3_context *context, int count, sqlite3_value **given) {
    struct room room;
    struct refusal why;
    size_t n;
    if (any_null(count, given)) return;
    const uint8_t *text = bytes_of(given[2], &n);
    size_t header = count == 4 ? PACKAGE_HEADER_BYTES : 0; /* with the number of a reference system it is a blob as a GeoPackage has it */
    take_text(&room, coordinate(given[0]), coordinate(given[1]), text, n);
    uint8_t *out = sqlite3_malloc64(header + polygon_bytes(&room));
    if (out == NULL) {
        sqlite3_result_error_nomem(context);
        return;
    }
    if (count == 4) write_package_header(out, (int32_t)sqlite3_value_int64(given[3]));
    long size = polygon_of(&room, out + header, &why);
    if (size < 0) {
        result_refused(context, &why);
        sqlite3_free(out);
    } else sqlite3_result_blob(context, out, (int)(header + (size_t)size), sqlite3_free);
}

/* Lays two polygons over each other. The spans of the three parts stand one after the other in memory that the caller frees; whether it
 * was done, and if not why, with number 0 for want of memory. */
struct overlay {
    int32_t *spans[3];
    uint32_t answer[UNDRWYTH_OVERLAY_ANSWER_WORDS];
};

static int overlay_of(sqlite3_value **given, struct overlay *overlay, struct refusal *why) {
    struct room first, second;
    memset(overlay, 0, sizeof *overlay);
    if (!take(&first, given[0], why) || !take(&second, given[1], why)) return 0;
    size_t numbers = span_numbers(&first, &second);
    int32_t *spans = sqlite3_malloc64(3 * numbers * sizeof *spans + 1);
    if (spans == NULL) return refused(why, 0, 0, NULL);
    for (int i = 0; i < 3; i++) overlay->spans[i] = spans + (size_t)i * numbers;
    return lay_over(&first, &second, overlay->spans, overlay->answer, why);
}

static void overlay(sqlite3_context *context, int count, sqlite3_value **given) {
    struct overlay laid;
    struct refusal why;
    if (any_null(count, given)) return;
    if (overlay_of(given, &laid, &why)) {
        const uint32_t *answer = laid.answer;
        char *whole = sqlite3_mprintf("{\"in_first\":%u,\"in_second\":%u,\"in_both\":%u}", (unsigned)answer[UNDRWYTH_OVERLAY_FIRST_PANELS],
                                      (unsigned)answer[UNDRWYTH_OVERLAY_SECOND_PANELS], (unsigned)answer[UNDRWYTH_OVERLAY_BOTH_PANELS]);
        if (whole == NULL) sqlite3_result_error_nomem(context);
        else sqlite3_result_text(context, whole, -1, sqlite3_free);
    } else if (why.number == 0) sqlite3_result_error_nomem(context);
    else result_refused(context, &why);
    sqlite3_free(laid.spans[0]);
}

/* ---- tables: undrwyth_rows(polygon) and undrwyth_overlay_rows(first, second) ---- */

struct table {
    sqlite3_vtab base;
    int rooms; /* 1 or 2 */
};

struct cursor {
    sqlite3_vtab_cursor base;
    int32_t *spans[3];
    long counts[3], at;
    int part, parts;
};

static int connect(sqlite3 *db, void *rooms, int count, const char *const *words, sqlite3_vtab **out, char **message) {
    (void)count, (void)words, (void)message;
    int two = rooms != NULL;
    int status = sqlite3_declare_vtab(db, two ? "CREATE TABLE x(part, row, first, last, first_polygon HIDDEN, second_polygon HIDDEN)"
                                              : "CREATE TABLE x(row, first, last, polygon HIDDEN)");
    if (status != SQLITE_OK) return status;
    struct table *table = sqlite3_malloc(sizeof *table);
    if (table == NULL) return SQLITE_NOMEM;
    memset(table, 0, sizeof *table);
    table->rooms = two ? 2 : 1;
    sqlite3_vtab_config(db, SQLITE_VTAB_INNOCUOUS);
    *out = &table->base;
    return SQLITE_OK;
}

static int disconnect(sqlite3_vtab *table) {
    sqlite3_free(table);
    return SQLITE_OK;
}

/* Each polygon has to be given by an argument. */
static int best_index(sqlite3_vtab *base, sqlite3_index_info *info) {
    int rooms = ((struct table *)base)->rooms, hidden = rooms == 2 ? 4 : 3, found = 0;
    for (int i = 0; i < info->nConstraint; i++) {
        int which = info->aConstraint[i].iColumn - hidden;
        if (which < 0 || which >= rooms || info->aConstraint[i].op != SQLITE_INDEX_CONSTRAINT_EQ) continue;
        if (!info->aConstraint[i].usable) return SQLITE_CONSTRAINT;
        info->aConstraintUsage[i].argvIndex = which + 1;
        info->aConstraintUsage[i].omit = 1;
        found |= 1 << which;
    }
    info->estimatedCost = 1000;
    info->estimatedRows = 100;
    if (found == (1 << rooms) - 1) return SQLITE_OK;
    sqlite3_free(base->zErrMsg);
    base->zErrMsg = sqlite3_mprintf("undrwyth: %s", rooms == 2 ? "two polygons have to be given" : "a polygon has to be given");
    return SQLITE_ERROR;
}

static int open_cursor(sqlite3_vtab *base, sqlite3_vtab_cursor **out) {
    (void)base;
    struct cursor *cursor = sqlite3_malloc(sizeof *cursor);
    if (cursor == NULL) return SQLITE_NOMEM;
    memset(cursor, 0, sizeof *cursor);
    *out = &cursor->base;
    return SQLITE_OK;
}

static void forget(struct cursor *cursor) {
    sqlite3_free(cursor->spans[0]);
    cursor->spans[0] = NULL;
    cursor->part = cursor->parts = 0;
    cursor->at = 0;
}

static int close_cursor(sqlite3_vtab_cursor *base) {
    forget((struct cursor *)base);
    sqlite3_free(base);
    return SQLITE_OK;
}

static void skip_empty(struct cursor *cursor) {
    while (cursor->part < cursor->parts && cursor->at == cursor->counts[cursor->part]) {
        cursor->part++;
        cursor->at = 0;
    }
}

static int filter(sqlite3_vtab_cursor *base, int index, const char *name, int count, sqlite3_value **given) {
    (void)index, (void)name;
    struct cursor *cursor = (struct cursor *)base;
    struct table *table = (struct table *)base->pVtab;
    struct refusal why = {0};
    struct overlay laid = {0};
    struct room room;
    uint32_t number;
    int done;
    forget(cursor);
    if (any_null(count, given)) return SQLITE_OK;
    if (table->rooms == 2) {
        done = overlay_of(given, &laid, &why);
        for (int i = 0; i < 3; i++) {
            cursor->spans[i] = laid.spans[i];
            cursor->counts[i] = (long)laid.answer[UNDRWYTH_OVERLAY_FIRST_SPANS + i];
        }
    } else {
        done = take(&room, given[0], &why) && (cursor->counts[0] = spans_of(&room, &cursor->spans[0], &number, &why)) >= 0;
    }
    cursor->parts = done ? table->rooms == 2 ? 3 : 1 : 0;
    skip_empty(cursor);
    if (done) return SQLITE_OK;
    if (why.number == 0) return SQLITE_NOMEM;
    char message[MESSAGE_BYTES];
    say_refusal(message, &why);
    sqlite3_free(base->pVtab->zErrMsg);
    base->pVtab->zErrMsg = sqlite3_mprintf("undrwyth: %s", message);
    return SQLITE_ERROR;
}

static int next(sqlite3_vtab_cursor *base) {
    struct cursor *cursor = (struct cursor *)base;
    cursor->at++;
    skip_empty(cursor);
    return SQLITE_OK;
}

static int at_end(sqlite3_vtab_cursor *base) {
    struct cursor *cursor = (struct cursor *)base;
    return cursor->part >= cursor->parts;
}

static int column(sqlite3_vtab_cursor *base, sqlite3_context *context, int which) {
    static const char *const parts[] = {"first", "second", "both"};
    struct cursor *cursor = (struct cursor *)base;
    int number = cursor->parts == 3 ? which - 1 : which;
    if (number < 0) sqlite3_result_text(context, parts[cursor->part], -1, SQLITE_STATIC);
    else if (number < UNDRWYTH_SPAN_NUMBERS) sqlite3_result_int(context, cursor->spans[cursor->part][UNDRWYTH_SPAN_NUMBERS * cursor->at + number]);
    return SQLITE_OK;
}

static int row_id(sqlite3_vtab_cursor *base, sqlite3_int64 *id) {
    struct cursor *cursor = (struct cursor *)base;
    *id = cursor->at + (sqlite3_int64)cursor->part * 0x100000;
    return SQLITE_OK;
}

static sqlite3_module tables = {
    .xConnect = connect, .xDisconnect = disconnect, .xBestIndex = best_index, .xOpen = open_cursor, .xClose = close_cursor, .xFilter = filter,
    .xNext = next, .xEof = at_end, .xColumn = column, .xRowid = row_id,
};

/* ---- the extension ---- */

static const struct {
    const char *name;
    int arguments;
    void (*function)(sqlite3_context *, int, sqlite3_value **);
} functions[] = {
    {"undrwyth_judge", 1, judge},     {"undrwyth_explain", 1, explain},  {"undrwyth_line", 1, line},       {"undrwyth_walk", 1, walk_from},
    {"undrwyth_walk", 3, walk_from},  {"undrwyth_is_room", 1, room_is},  {"undrwyth_panels", 1, panels},   {"undrwyth_is_convex", 1, convex},
    {"undrwyth_chain", 1, chain},     {"undrwyth_outline", 1, outline},  {"undrwyth_overlay", 2, overlay}, {"undrwyth_polygon", 3, polygon},
    {"undrwyth_polygon", 4, polygon}, {"undrwyth_orthogonal_hull", 1, orthogonal}, {"undrwyth_orthogonal_hull", 2, orthogonal},
};

static int begin(sqlite3 *db) {
    int status = SQLITE_OK;
    for (size_t i = 0; status == SQLITE_OK && i < sizeof functions / sizeof *functions; i++)
        status = sqlite3_create_function_v2(db, functions[i].name, functions[i].arguments, SQLITE_UTF8 | SQLITE_DETERMINISTIC | SQLITE_INNOCUOUS, NULL,
                                            functions[i].function, NULL, NULL, NULL);
    if (status == SQLITE_OK) status = sqlite3_create_module_v2(db, "undrwyth_rows", &tables, NULL, NULL);
    if (status == SQLITE_OK) status = sqlite3_create_module_v2(db, "undrwyth_overlay_rows", &tables, &tables, NULL);
    return status;
}

/* The name that SQLite looks for in a file mod_undrwyth.so. */
__attribute__((visibility("default"))) int sqlite3_modundrwyth_init(sqlite3 *db, char **message, const sqlite3_api_routines *api);
int sqlite3_modundrwyth_init(sqlite3 *db, char **message, const sqlite3_api_routines *api) {
    (void)message;
    SQLITE_EXTENSION_INIT2(api);
    return begin(db);
}
