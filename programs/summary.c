/* SPDX-License-Identifier: MIT
 * Counts what the records of the input are, and keeps the refused lines. */
#define _XOPEN_SOURCE 700
#include <errno.h>
#include <fcntl.h>
#include <stdio.h>
#include <string.h>
#include <sys/stat.h>
#include <unistd.h>

#include "command.h"
#include "output.h"

enum { VERDICTS = UNDRWYTH_VERDICT_THERE_AND_BACK + 1, REFUSALS = UNDRWYTH_REFUSAL_SPAN_ROOM + 1 };

static struct record record;
static struct walk walk;
static unsigned long long verdicts[VERDICTS], refusals[REFUSALS], firsts[REFUSALS], panels, steps, refused;
static char sentences[REFUSALS][sizeof record.sentence];
static FILE *kept;

static void count(void) {
    if (record.refusal == 0) {
        int32_t area = (int32_t)walk.answer[UNDRWYTH_WALK_AREA];
        verdicts[walk.answer[UNDRWYTH_WALK_VERDICT]]++;
        panels += (unsigned long long)(area < 0 ? -(long long)area : area);
        steps += walk.answer[UNDRWYTH_WALK_STEPS];
        return;
    }
    if (refusals[record.refusal]++ == 0) {
        firsts[record.refusal] = record.number;
        memcpy(sentences[record.refusal], record.sentence, sizeof record.sentence);
    }
    refused++;
    if (kept != NULL) {
        fwrite(record.line, 1, record.line_size, kept);
        putc('\n', kept);
    }
}

/* A line of the summary: how many, and of what. */
static void put_line(unsigned long long number, const char *what) {
    char words[96];
    snprintf(words, sizeof words, "%12llu  %s\n", number, what);
    put(words);
}

static void put_words(void) {
    static const char *const words[VERDICTS] = {"no step survives", "open, not crossed", "rooms", "open and crossed", "closed and crossed", "there and back"};
    put_line(record.number, record.number == 1 ? "record" : "records");
    put_line(panels, "panels in rooms");
    put_line(steps, "steps that survive");
    for (int i = 0; i < VERDICTS; i++)
        if (verdicts[i] > 0) put_line(verdicts[i], words[i]);
    if (refused > 0) put_line(refused, "refused:");
    for (int i = 0; i < REFUSALS; i++) {
        if (refusals[i] == 0) continue;
        char text[96];
        snprintf(text, sizeof text, "%16llu  refusal %d, first in line %llu: ", refusals[i], i, firsts[i]);
        put(text);
        put(sentences[i]);
        put("\n");
    }
}

/* One fact: its name, its number, and the first line that has it if it is a refusal. */
static void put_fact(const char *name, unsigned long long number, unsigned long long first) {
    static int begun;
    if (form == JSON) {
        put(begun ? ",\"" : "{\"");
        put(name);
        put("\":");
        if (first > 0) put("{\"lines\":");
        put_number((long long)number);
        if (first > 0) {
            put(",\"first\":");
            put_number((long long)first);
            put("}");
        }
    } else {
        if (!begun) put("fact,number,first_line\n");
        put(name);
        put(",");
        put_number((long long)number);
        put(",");
        if (first > 0) put_number((long long)first);
        put("\n");
    }
    begun = 1;
}

static void put_facts(void) {
    put_fact("records", record.number, 0);
    put_fact("panels", panels, 0);
    put_fact("steps", steps, 0);
    for (unsigned i = 0; i < VERDICTS; i++) put_fact(undrwyth_verdict_name(i), verdicts[i], 0);
    put_fact("refused", refused, 0);
    for (unsigned i = 0; i < REFUSALS; i++)
        if (refusals[i] > 0) put_fact(undrwyth_refusal_name(i), refusals[i], firsts[i]);
    if (form == JSON) put("}\n");
}

/* Opens the file for refused lines. It must not be one that is read. */
static int open_kept(void) {
    if (refused_lines == NULL) return WHOLE;
    if (is_read(refused_lines)) return fail("%s is read, and refused lines are not written to it", refused_lines);
    kept = fopen(refused_lines, "w");
    return kept != NULL ? WHOLE : fail("%s cannot be written: %s", refused_lines, strerror(errno));
}

static int close_kept(void) {
    if (kept == NULL) return WHOLE;
    int bad = ferror(kept);
    return fclose(kept) == 0 && !bad ? WHOLE : fail("%s was not written whole: %s", refused_lines, strerror(errno));
}

int summary(void) {
    int got;
    if (open_kept() != WHOLE) return FAILED;
    while ((got = next_walk(0, &record, &walk)) > 0) count();
    if (close_kept() != WHOLE) return FAILED;
    if (got == 0 && form == SENTENCES) put_words();
    else if (got == 0) put_facts();
    return end_of_input(got);
}
