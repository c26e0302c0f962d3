/* SPDX-License-Identifier: MIT
 * Undrwyth in PostgreSQL: SQL functions over the proved library. docs/DATABASE.md has them. Nothing is judged here: bytes are lent to the calls, and
 * their answers become rows. A function that asks for a room raises an error of SQLSTATE 22023 with the refusal's number, place and sentence;
 * undrwyth_is_room is false instead, whatever the bytes. */
#include "postgres.h"

#include "fmgr.h"
#include "funcapi.h"
#include "utils/builtins.h"
#include "utils/tuplestore.h"

#include "core.h"

PG_MODULE_MAGIC;

/* ---- arguments and results ---- */

static const uint8_t *bytes_of(struct varlena *value, size_t *n) {
    *n = VARSIZE_ANY_EXHDR(value);
    return (const uint8_t *)VARDATA_ANY(value);
}

static void refuse_call(const struct refusal *why) {
    char message[MESSAGE_BYTES];
    say_refusal(message, why);
    ereport(ERROR, (errcode(ERRCODE_INVALID_PARAMETER_VALUE), errmsg("undrwyth: %s", message)));
}

/* The room of a polygon, in memory of this call; an error if it cannot be read. */
static struct room *room_of(struct varlena *value) {
    struct room *room = palloc(sizeof *room);
    struct refusal why;
    size_t n;
    const uint8_t *bytes = bytes_of(value, &n);
    if (!take_polygon(room, bytes, n, 0, &why)) refuse_call(&why);
    return room;
}

/* The columns of the function's rows; they are looked up at the first call of a statement and kept with the function until its end. */
static TupleDesc columns(FunctionCallInfo fcinfo) {
    if (fcinfo->flinfo->fn_extra == NULL) {
        MemoryContext before = MemoryContextSwitchTo(fcinfo->flinfo->fn_mcxt);
        TupleDesc found;
        if (get_call_result_type(fcinfo, NULL, &found) != TYPEFUNC_COMPOSITE)
            ereport(ERROR, (errcode(ERRCODE_FEATURE_NOT_SUPPORTED), errmsg("undrwyth: the result is a row")));
        fcinfo->flinfo->fn_extra = BlessTupleDesc(found);
        MemoryContextSwitchTo(before);
    }
    return fcinfo->flinfo->fn_extra;
}

static Datum row(FunctionCallInfo fcinfo, Datum *values, bool *nulls) {
    return HeapTupleGetDatum(heap_form_tuple(columns(fcinfo), values, nulls));
}

static Datum row_of_facts(FunctionCallInfo fcinfo, const int32_t facts[FACTS]) {
    Datum values[FACTS];
    bool nulls[FACTS];
    for (int i = 0; i < FACTS; i++) {
        values[i] = Int32GetDatum(facts[i]);
        nulls[i] = !has_fact(facts, i);
    }
    return row(fcinfo, values, nulls);
}

static Datum row_of_chain(FunctionCallInfo fcinfo, struct room *room) {
    bool nulls[3] = {false, false, false};
    for (size_t i = 0; i < room->steps; i++) room->chain[i] = (uint8_t)(room->chain[i] + '0');
    Datum values[3] = {Int32GetDatum(room->x), Int32GetDatum(room->y), PointerGetDatum(cstring_to_text_with_len((char *)room->chain, (int)room->steps))};
    return row(fcinfo, values, nulls);
}

/* ---- functions on records ---- */

PG_FUNCTION_INFO_V1(undrwyth_sql_line);
Datum undrwyth_sql_line(PG_FUNCTION_ARGS) {
    uint8_t out[UNDRWYTH_LINE_BYTES];
    size_t n;
    const uint8_t *record = bytes_of(PG_GETARG_VARLENA_PP(0), &n);
    PG_RETURN_TEXT_P(cstring_to_text_with_len((char *)out, (int)undrwyth_line(record, n, out, sizeof out)));
}

PG_FUNCTION_INFO_V1(undrwyth_sql_judge);
Datum undrwyth_sql_judge(PG_FUNCTION_ARGS) {
    int32_t facts[FACTS];
    size_t n;
    const uint8_t *record = bytes_of(PG_GETARG_VARLENA_PP(0), &n);
    judge_line(record, n, facts);
    PG_RETURN_DATUM(row_of_facts(fcinfo, facts));
}

/* Walks a record in memory of its own. */
static void walk_record(struct record *record, struct walk *walk) {
    walk->table = palloc(sizeof(uint32_t) * table_words(record));
    walk->marks = palloc(sizeof(uint32_t) * marks_words(record) + 1);
    walk->bytes = palloc(operation_bytes(record) + 1);
    walk->steps = palloc(operation_bytes(record) + 1);
    walked(record, walk);
    pfree(walk->table);
    pfree(walk->marks);
    pfree(walk->bytes);
    pfree(walk->steps);
}

PG_FUNCTION_INFO_V1(undrwyth_sql_explain);
Datum undrwyth_sql_explain(PG_FUNCTION_ARGS) {
    struct record record = {0};
    struct walk walk;
    size_t n;
    const uint8_t *line = bytes_of(PG_GETARG_VARLENA_PP(0), &n);
    begin_record(&record, line, n);
    split_record(&record, EITHER);
    if (record.refusal == 0) walk_record(&record, &walk);
    PG_RETURN_TEXT_P(cstring_to_text(record.refusal != 0 ? psprintf("refused: %s", record.sentence) : record.sentence));
}

PG_FUNCTION_INFO_V1(undrwyth_sql_walk);
Datum undrwyth_sql_walk(PG_FUNCTION_ARGS) {
    struct record record = {0};
    struct walk walk;
    int32_t facts[FACTS] = {UNDRWYTH_REFUSAL_TOO_MANY};
    size_t n;
    const uint8_t *operations = bytes_of(PG_GETARG_VARLENA_PP(0), &n);
    begin_record(&record, operations, n);
    record.count = n;
    record.x = PG_GETARG_INT32(1);
    record.y = PG_GETARG_INT32(2);
    if (n <= UNDRWYTH_MOST_INPUT_BYTES) {
        walk_record(&record, &walk);
        facts_of_walk(walk.answer, facts);
    }
    PG_RETURN_DATUM(row_of_facts(fcinfo, facts));
}

/* ---- functions on polygons ---- */

PG_FUNCTION_INFO_V1(undrwyth_sql_is_room);
Datum undrwyth_sql_is_room(PG_FUNCTION_ARGS) {
    struct room *room = palloc(sizeof *room);
    struct refusal why;
    uint32_t convex;
    size_t n;
    const uint8_t *bytes = bytes_of(PG_GETARG_VARLENA_PP(0), &n);
    bool yes = take_polygon(room, bytes, n, 0, &why) && is_room(room, &convex, &why);
    pfree(room);
    PG_RETURN_BOOL(yes);
}

PG_FUNCTION_INFO_V1(undrwyth_sql_is_convex);
Datum undrwyth_sql_is_convex(PG_FUNCTION_ARGS) {
    struct room *room = room_of(PG_GETARG_VARLENA_PP(0));
    struct refusal why;
    uint32_t convex;
    if (!is_room(room, &convex, &why)) refuse_call(&why);
    pfree(room);
    PG_RETURN_BOOL(convex == 1);
}

/* The spans of a room, in memory of this call: how many. */
static long spans_of(const struct room *room, int32_t **spans, uint32_t *panels) {
    struct refusal why;
    *spans = palloc(sizeof **spans * span_numbers(room, NULL) + 1);
    long count = room_rows(room, *spans, panels, &why);
    if (count < 0) refuse_call(&why);
    return count;
}

PG_FUNCTION_INFO_V1(undrwyth_sql_panels);
Datum undrwyth_sql_panels(PG_FUNCTION_ARGS) {
    struct room *room = room_of(PG_GETARG_VARLENA_PP(0));
    int32_t *spans;
    uint32_t panels;
    spans_of(room, &spans, &panels);
    pfree(spans);
    pfree(room);
    PG_RETURN_INT32((int32)panels);
}

PG_FUNCTION_INFO_V1(undrwyth_sql_chain);
Datum undrwyth_sql_chain(PG_FUNCTION_ARGS) {
    PG_RETURN_DATUM(row_of_chain(fcinfo, room_of(PG_GETARG_VARLENA_PP(0))));
}

PG_FUNCTION_INFO_V1(undrwyth_sql_outline);
Datum undrwyth_sql_outline(PG_FUNCTION_ARGS) {
    struct room *room = room_of(PG_GETARG_VARLENA_PP(0)), *outline = palloc(sizeof *outline);
    struct refusal why;
    if (!outline_of(room, outline, &why)) refuse_call(&why);
    PG_RETURN_DATUM(row_of_chain(fcinfo, outline));
}

PG_FUNCTION_INFO_V1(undrwyth_sql_orthogonal_hull);
Datum undrwyth_sql_orthogonal_hull(PG_FUNCTION_ARGS) {
    struct room *room = room_of(PG_GETARG_VARLENA_PP(0)), *outline = palloc(sizeof *outline);
    struct refusal why;
    uint32_t blocks;
    if (!orthogonal_of(room, PG_GETARG_INT32(1), outline, &blocks, &why)) refuse_call(&why);
    bool nulls[4] = {false, false, false, false};
    for (size_t i = 0; i < outline->steps; i++) outline->chain[i] = (uint8_t)(outline->chain[i] + '0');
    Datum chain = PointerGetDatum(cstring_to_text_with_len((char *)outline->chain, (int)outline->steps));
    Datum values[4] = {Int32GetDatum(outline->x), Int32GetDatum(outline->y), chain, Int32GetDatum((int32)blocks)};
    PG_RETURN_DATUM(row(fcinfo, values, nulls));
}

PG_FUNCTION_INFO_V1(undrwyth_sql_polygon);
Datum undrwyth_sql_polygon(PG_FUNCTION_ARGS) {
    struct room *room = palloc(sizeof *room);
    struct refusal why;
    size_t n;
    const uint8_t *chain = bytes_of(PG_GETARG_VARLENA_PP(2), &n);
    take_text(room, PG_GETARG_INT32(0), PG_GETARG_INT32(1), chain, n);
    bytea *out = palloc(VARHDRSZ + polygon_bytes(room));
    long size = polygon_of(room, (uint8_t *)VARDATA(out), &why);
    if (size < 0) refuse_call(&why);
    SET_VARSIZE(out, VARHDRSZ + size);
    pfree(room);
    PG_RETURN_BYTEA_P(out);
}

/* Lays two polygons over each other: the spans of the three parts, in memory of this call. */
static void overlay_of(FunctionCallInfo fcinfo, int32_t *spans[3], uint32_t answer[UNDRWYTH_OVERLAY_ANSWER_WORDS]) {
    struct room *first = room_of(PG_GETARG_VARLENA_PP(0)), *second = room_of(PG_GETARG_VARLENA_PP(1));
    struct refusal why;
    size_t numbers = span_numbers(first, second);
    spans[0] = palloc(3 * numbers * sizeof **spans + 1);
    spans[1] = spans[0] + numbers;
    spans[2] = spans[1] + numbers;
    if (!lay_over(first, second, spans, answer, &why)) refuse_call(&why);
    pfree(first);
    pfree(second);
}

PG_FUNCTION_INFO_V1(undrwyth_sql_overlay);
Datum undrwyth_sql_overlay(PG_FUNCTION_ARGS) {
    int32_t *spans[3];
    uint32_t answer[UNDRWYTH_OVERLAY_ANSWER_WORDS];
    bool nulls[3] = {false, false, false};
    overlay_of(fcinfo, spans, answer);
    pfree(spans[0]);
    Datum values[3];
    for (int i = 0; i < 3; i++) values[i] = Int32GetDatum((int32)answer[UNDRWYTH_OVERLAY_FIRST_PANELS + i]);
    PG_RETURN_DATUM(row(fcinfo, values, nulls));
}

/* Puts spans into the result of a function that gives a set of rows; `part` names the part that they are of, or is null. */
static void put_spans(ReturnSetInfo *result, const int32_t *spans, long count, const char *part) {
    Datum values[4];
    bool nulls[4] = {false, false, false, false};
    int at = 0;
    if (part != NULL) values[at++] = CStringGetTextDatum(part);
    for (long i = 0; i < count; i++) {
        for (int k = 0; k < UNDRWYTH_SPAN_NUMBERS; k++) values[at + k] = Int32GetDatum(spans[UNDRWYTH_SPAN_NUMBERS * i + k]);
        tuplestore_putvalues(result->setResult, result->setDesc, values, nulls);
    }
}

PG_FUNCTION_INFO_V1(undrwyth_sql_rows);
Datum undrwyth_sql_rows(PG_FUNCTION_ARGS) {
    struct room *room = room_of(PG_GETARG_VARLENA_PP(0));
    int32_t *spans;
    uint32_t panels;
    long count = spans_of(room, &spans, &panels);
    InitMaterializedSRF(fcinfo, 0);
    put_spans((ReturnSetInfo *)fcinfo->resultinfo, spans, count, NULL);
    PG_RETURN_NULL();
}

PG_FUNCTION_INFO_V1(undrwyth_sql_overlay_rows);
Datum undrwyth_sql_overlay_rows(PG_FUNCTION_ARGS) {
    static const char *const parts[] = {"first", "second", "both"};
    int32_t *spans[3];
    uint32_t answer[UNDRWYTH_OVERLAY_ANSWER_WORDS];
    overlay_of(fcinfo, spans, answer);
    InitMaterializedSRF(fcinfo, 0);
    for (int i = 0; i < 3; i++) put_spans((ReturnSetInfo *)fcinfo->resultinfo, spans[i], (long)answer[UNDRWYTH_OVERLAY_FIRST_SPANS + i], parts[i]);
    PG_RETURN_NULL();
}
