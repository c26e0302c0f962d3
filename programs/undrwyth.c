/* SPDX-License-Identifier: MIT
 * The command undrwyth: its words, its help, and how it ends. */
#define _XOPEN_SOURCE 700
#include <errno.h>
#include <fcntl.h>
#include <signal.h>
#include <stdarg.h>
#include <stdint.h>
#include <stdio.h>
#include <stdlib.h>
#include <string.h>
#include <unistd.h>

#include "command.h"
#include "output.h"

/* The proved programs on lines, whose assembly is in dist/. */
int judge_main(int, char **), convert_main(int, char **), rows_main(int, char **), polygons_main(int, char **);

#define TEXT(name) extern const unsigned char name[], name##_end[]
TEXT(all_help);
TEXT(common_help);
TEXT(records_help);
TEXT(judge_help);
TEXT(convert_help);
TEXT(rows_help);
TEXT(polygons_help);
TEXT(explain_help);
TEXT(summary_help);
TEXT(draw_help);
TEXT(dxf_help);
TEXT(chains_help);
TEXT(outline_help);
TEXT(hull_help);
TEXT(convex_help);
TEXT(orthogonal_help);
TEXT(spans_help);
TEXT(overlay_help);
TEXT(table_help);
TEXT(parts_help);
TEXT(orders_help);
TEXT(page_help);
TEXT(records_sample);
TEXT(old_records_sample);
TEXT(rooms_sample);
TEXT(picture_sample);
TEXT(polygons_sample);
TEXT(orders_sample);
TEXT(landlord_sample);
TEXT(tenant_sample);
#define OF(name) {name, name##_end}

/* What a command takes besides --help, --sample and files. */
enum { PRETTY = 1, RECORDS = 2, FORMS = 4, APART = 8, REFUSED = 16, PAIRED = 32, WKB = 64, NO_INPUT = 128, GRID = 256, HULL = 512 };

struct command {
    const char *name;
    struct text help, sample;
    int (*proved)(int, char **); /* a program on lines, */
    int (*shown)(void);          /* or what shows the answers of proved calls */
    int takes;
    int (*own)(char **, int);    /* or what reads its words itself */
};

static const struct command commands[] = {
    {"judge", OF(judge_help), OF(records_sample), judge_main, NULL, 0, NULL},
    {"convert", OF(convert_help), OF(old_records_sample), convert_main, NULL, 0, NULL},
    {"rows", OF(rows_help), OF(rooms_sample), rows_main, NULL, PRETTY, NULL},
    {"polygons", OF(polygons_help), OF(records_sample), polygons_main, NULL, 0, NULL},
    {"explain", OF(explain_help), OF(orders_sample), NULL, explain, RECORDS | FORMS | WKB, NULL},
    {"summary", OF(summary_help), OF(orders_sample), NULL, summary, RECORDS | FORMS | REFUSED, NULL},
    {"draw", OF(draw_help), OF(picture_sample), NULL, draw, RECORDS | GRID | HULL, NULL},
    {"dxf", OF(dxf_help), OF(orders_sample), NULL, dxf, RECORDS | APART, NULL},
    {"chains", OF(chains_help), OF(polygons_sample), NULL, chains, FORMS, NULL},
    {"outline", OF(outline_help), OF(orders_sample), NULL, outline, RECORDS | FORMS, NULL},
    {"hull", OF(hull_help), OF(orders_sample), NULL, hull, RECORDS | FORMS, NULL},
    {"convex", OF(convex_help), OF(orders_sample), NULL, convex, RECORDS | FORMS, NULL},
    {"orthogonal", OF(orthogonal_help), OF(orders_sample), NULL, orthogonal, RECORDS | FORMS | GRID, NULL},
    {"spans", OF(spans_help), OF(orders_sample), NULL, spans, RECORDS | FORMS, NULL},
    {"overlay", OF(overlay_help), OF(landlord_sample), NULL, overlay, RECORDS | FORMS | PAIRED, NULL},
    {"table", OF(table_help), OF(picture_sample), NULL, table, RECORDS | FORMS, NULL},
    {"parts", OF(parts_help), .own = parts},
    {"orders", OF(orders_help), .own = orders},
    {"page", OF(page_help), OF(page_help), NULL, page, NO_INPUT, NULL},
};

static const struct text all = OF(all_help), common = OF(common_help), of_records = OF(records_help), tenant = OF(tenant_sample);
static const struct command *chosen;

/* The name that messages begin with: it is made before a signal can come. */
static char name[32] = "undrwyth";

int fail(const char *format, ...) {
    char line[4096];
    int n = snprintf(line, sizeof line, "%s: ", name);
    va_list words;
    va_start(words, format);
    n += vsnprintf(line + n, sizeof line - (size_t)n - 1, format, words);
    va_end(words);
    if (n > (int)sizeof line - 2) n = (int)sizeof line - 2;
    line[n++] = '\n';
    if (write(2, line, (size_t)n) < 0) return FAILED; /* nobody hears it */
    return FAILED;
}

/* A signal that ends the program: it says so, and the status is that of a failure. */
static void stopped(int signal) {
    char line[96], digits[8];
    size_t n = 0, d = 0;
    int status = 128 + signal, asked = signal == SIGHUP || signal == SIGINT || signal == SIGQUIT || signal == SIGTERM;
    const char *const words[] = {name, ": the program was stopped", asked ? " by a signal" : "", ", with status "};
    for (size_t i = 0; i < sizeof words / sizeof *words; i++)
        for (const char *c = words[i]; *c != 0; c++) line[n++] = *c;
    for (; status > 0; status /= 10) digits[d++] = (char)('0' + status % 10);
    while (d > 0) line[n++] = digits[--d];
    line[n++] = '\n';
    if (write(2, line, n) < 0) _exit(FAILED);
    _exit(FAILED);
}

/* A write that nobody reads, or that grows a file beyond a limit, fails and does not end the program. */
static void watch_signals(void) {
    static const int ending[] = {SIGHUP, SIGINT, SIGQUIT, SIGTERM, SIGSEGV, SIGBUS, SIGILL, SIGTRAP, SIGFPE, SIGABRT};
    static char stack[65536]; /* for a signal that comes since the stack is used up */
    stack_t other = {.ss_sp = stack, .ss_size = sizeof stack};
    struct sigaction action = {.sa_handler = stopped, .sa_flags = SA_ONSTACK}, before;
    sigaltstack(&other, NULL);
    for (size_t i = 0; i < sizeof ending / sizeof *ending; i++)
        if (sigaction(ending[i], NULL, &before) == 0 && before.sa_handler != SIG_IGN) sigaction(ending[i], &action, NULL);
    signal(SIGPIPE, SIG_IGN);
    signal(SIGXFSZ, SIG_IGN);
}

/* Writes a text to standard output: the status. */
static int print(struct text text) {
    if (write_bytes(text.from, (size_t)(text.to - text.from)) < 0) return fail("a write to standard output failed: %s", strerror(errno));
    return WHOLE;
}

static int print_help(void) {
    int status = print(chosen != NULL ? chosen->help : all);
    if (status == WHOLE && chosen != NULL && chosen->takes & RECORDS) status = print(of_records);
    return status == WHOLE && chosen != NULL && chosen->own == NULL ? print(common) : status;
}

/* Wrong usage, with the word that is wrong and the first paragraph of the help. */
static int misused(const char *word) {
    struct text help = chosen != NULL ? chosen->help : all;
    const unsigned char *end = help.from;
    while (end + 1 < help.to && (end[0] != '\n' || end[1] != '\n')) end++;
    if (word != NULL) fail("wrong usage: %s", word);
    else fail("wrong usage");
    if (write(2, help.from, (size_t)(end + 1 - help.from)) < 0) return MISUSED;
    return MISUSED;
}

static int is(const char *word, const char *other) {
    return strcmp(word, other) == 0;
}

const char *refused_lines;

/* What the words after the command ask for. */
static struct {
    int sampled, pretty;
    const char *record;
} asked;

/* A grid size, 0 if the word is not a whole number: what is above the most is refused by the proved call. */
static int take_grid(const char *word) {
    if (word[0] == 0 || strspn(word, "0123456789") != strlen(word)) return 0;
    grid_size = strtoul(word, NULL, 10);
    if (grid_size > UINT32_MAX) grid_size = UINT32_MAX;
    return 1;
}

/* Takes the option that stands first in the words: how many words it has, or 0 if the command has none of that name. */
static int option(char **words, int count) {
    int takes = chosen->takes;
    if (is(*words, "--sample")) asked.sampled = 1;
    else if (is(*words, "--pretty") && takes & PRETTY) asked.pretty = 1;
    else if (is(*words, "--json") && takes & FORMS) form = JSON;
    else if (is(*words, "--csv") && takes & FORMS) form = CSV;
    else if (is(*words, "--frames") && takes & RECORDS) reading = FRAMES;
    else if (is(*words, "--digits") && takes & RECORDS) reading = DIGITS;
    else if (is(*words, "--wkb") && takes & WKB) with_polygons = 1;
    else if (is(*words, "--apart") && takes & APART) apart = 1;
    else if (is(*words, "--orthogonal") && takes & HULL) with_hull = 1;
    else if (is(*words, "--grid") && takes & GRID && count > 1 && take_grid(words[1])) return 2;
    else if (is(*words, "--refused") && takes & REFUSED && count > 1) refused_lines = words[1];
    else if (is(*words, "--record") && takes & RECORDS && !(takes & PAIRED) && count > 1) asked.record = words[1];
    else return 0;
    return is(*words, "--refused") || is(*words, "--record") ? 2 : 1;
}

/* The two inputs of a command on pairs. */
static int take_pair(char **words, int count) {
    if (asked.sampled) {
        take_sample(0, chosen->sample);
        take_sample(1, tenant);
        return WHOLE;
    }
    if (count != 2) return misused(count < 2 ? "two inputs are needed" : words[2]);
    if (is(words[0], "-") && is(words[1], "-")) return misused("only one input can be standard input");
    return take_files(0, words, 1, 1) == WHOLE && take_files(1, words + 1, 1, 1) == WHOLE ? WHOLE : FAILED;
}

static int run(char **words, int count) {
    int taken;
    if (chosen->own != NULL) {
        int status = chosen->own(words, count);
        return status == MISUSED ? misused(NULL) : status;
    }
    for (; count > 0 && words[0][0] == '-' && words[0][1] != 0; words += taken, count -= taken) {
        taken = 1;
        if (is(*words, "--")) {
            words++;
            count--;
            break;
        }
        taken = option(words, count);
        if (taken == 0) return misused(*words);
    }
    if ((asked.sampled || asked.record != NULL) && count > 0) return misused(*words);
    if (asked.sampled && asked.record != NULL) return misused("--sample and --record");
    if (chosen->takes & NO_INPUT && (asked.sampled || count > 0)) return misused(asked.sampled ? "--sample" : *words);
    if (grid_size != 1 && chosen->takes & HULL && !with_hull) return misused("--grid without --orthogonal");
    if (with_polygons && form == SENTENCES) form = CSV;
    if (fcntl(1, F_GETFD) < 0) return fail("standard output is closed");
    if (chosen->takes & NO_INPUT) return chosen->shown();
    if (chosen->takes & PAIRED) {
        int status = take_pair(words, count);
        return status == WHOLE ? chosen->shown() : status;
    }
    if (asked.record != NULL) take_record(0, asked.record);
    else if (asked.sampled) take_sample(0, chosen->sample);
    else if (take_files(0, words, count, chosen->takes & RECORDS) != WHOLE) return FAILED;
    return chosen->proved != NULL ? run_lines(chosen->proved, asked.pretty) : chosen->shown();
}

int main(int count, char **words) {
    if (count < 2) return misused(NULL);
    for (size_t i = 0; i < sizeof commands / sizeof *commands; i++)
        if (is(words[1], commands[i].name)) chosen = &commands[i];
    if (chosen != NULL) snprintf(name, sizeof name, "undrwyth %s", chosen->name);
    watch_signals();
    const char *only = chosen == NULL ? words[1] : count == 3 ? words[2] : "";
    int alone = count == (chosen == NULL ? 2 : 3);
    if (alone && (is(only, "--help") || is(only, "-h"))) return print_help();
    if (alone && is(only, "--version")) {
        static const char version[] = "undrwyth " UNDRWYTH_VERSION "\n";
        return print((struct text){(const unsigned char *)version, (const unsigned char *)version + sizeof version - 1});
    }
    if (chosen == NULL) return misused(words[1]);
    return run(words + 2, count - 2);
}
