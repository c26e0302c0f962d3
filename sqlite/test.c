/* SPDX-License-Identifier: MIT
 * Tries the extension for SQLite: test EXTENSION run DATABASE < statements, which prints what each gives; test EXTENSION calls COUNT, which makes that many
 * calls on whole, torn and random values, and fails if SQLite's memory grew or if two functions disagree on what is a room. */
#include <sqlite3.h>
#include <stdio.h>
#include <stdlib.h>
#include <string.h>

static sqlite3 *database;

static int fail(const char *what) {
    printf("test: %s: %s\n", what, sqlite3_errmsg(database));
    return 1;
}

static int print_row(void *nothing, int columns, char **values, char **names) {
    (void)nothing, (void)names;
    for (int i = 0; i < columns; i++) printf("%s%s", i == 0 ? "" : "|", values[i] != NULL ? values[i] : "NULL");
    putchar('\n');
    return 0;
}

static int run(void) {
    static char line[65536];
    while (fgets(line, sizeof line, stdin) != NULL) {
        char *message = NULL;
        fputs(line, stdout);
        if (sqlite3_exec(database, line, print_row, NULL, &message) != SQLITE_OK) printf("error: %s\n", message);
        sqlite3_free(message);
    }
    return 0;
}

static unsigned random_state = 41;
static unsigned next_random(unsigned below) {
    random_state = random_state * 1664525u + 1013904223u;
    return (random_state >> 8) % below;
}

/* What a statement on one blob gives: its first number without its sign, or -1 for an error. */
static int asked(sqlite3_stmt *statement, const unsigned char *blob, int n) {
    sqlite3_bind_blob(statement, 1, blob, n, SQLITE_STATIC);
    int status = sqlite3_step(statement), answer = status == SQLITE_ROW ? abs(sqlite3_column_int(statement, 0)) : 0;
    while (status == SQLITE_ROW) status = sqlite3_step(statement);
    if (status != SQLITE_DONE) answer = -1;
    sqlite3_reset(statement);
    return answer;
}

static int calls(long count) {
    static const char *const statements[] = {
        "SELECT undrwyth_is_room(?)",        "SELECT undrwyth_panels(?)",          "SELECT undrwyth_is_convex(?)",
        "SELECT * FROM undrwyth_rows(?)",    "SELECT undrwyth_overlay(?1, ?1)",    "SELECT * FROM undrwyth_overlay_rows(?1, ?1)",
        "SELECT undrwyth_orthogonal_hull(?)", "SELECT undrwyth_orthogonal_hull(?, 3)",
        "SELECT undrwyth_chain(?)",          "SELECT undrwyth_outline(?)",         "SELECT undrwyth_judge(?)",
        "SELECT undrwyth_explain(?)",        "SELECT undrwyth_walk(?)",            "SELECT undrwyth_line(?)",
    };
    enum { KINDS = sizeof statements / sizeof *statements };
    sqlite3_stmt *prepared[KINDS], *polygon;
    unsigned char room[4096], blob[4096];
    sqlite3_int64 before = 0;
    long rooms = 0;
    for (int i = 0; i < KINDS; i++)
        if (sqlite3_prepare_v2(database, statements[i], -1, &prepared[i], NULL) != SQLITE_OK) return fail(statements[i]);
    if (sqlite3_prepare_v2(database, "SELECT undrwyth_polygon(3, -4, '000112321233', 1000)", -1, &polygon, NULL) != SQLITE_OK || sqlite3_step(polygon) != SQLITE_ROW)
        return fail("polygon");
    int n = sqlite3_column_bytes(polygon, 0);
    memcpy(room, sqlite3_column_blob(polygon, 0), (size_t)n);
    sqlite3_finalize(polygon);
    for (long i = 0; i < count; i += KINDS) {
        int m = n;
        if (i == count / 4 / KINDS * KINDS) before = sqlite3_memory_used();
        memcpy(blob, room, (size_t)n);
        unsigned kind = next_random(4);
        if (kind == 1) blob[next_random((unsigned)n)] = (unsigned char)next_random(256);
        if (kind == 2) m = (int)next_random((unsigned)n);
        if (kind == 3)
            for (m = 0; m < (int)next_random(300); m++) blob[m] = (unsigned char)next_random(256);
        int is = asked(prepared[0], blob, m);
        rooms += is;
        for (int k = 1; k < KINDS; k++) {
            int answer = asked(prepared[k], blob, m);
            if ((k < 8 && (answer >= 0) != is) || (k > 9 && answer < 0)) return fail(statements[k]);
        }
    }
    sqlite3_int64 after = sqlite3_memory_used();
    for (int i = 0; i < KINDS; i++) sqlite3_finalize(prepared[i]);
    printf("%ld calls, %ld on rooms; SQLite's memory %lld bytes after a quarter of them and %lld at the end\n", count, rooms * KINDS, (long long)before, (long long)after);
    return after > before + 4096 || rooms == 0;
}

int main(int count, char **words) {
    if (count != 4 || sqlite3_open(strcmp(words[2], "run") == 0 ? words[3] : ":memory:", &database) != SQLITE_OK) return 2;
    sqlite3_db_config(database, SQLITE_DBCONFIG_ENABLE_LOAD_EXTENSION, 1, NULL);
    sqlite3_db_config(database, SQLITE_DBCONFIG_TRUSTED_SCHEMA, 0, NULL); /* only innocuous functions may stand in a schema */
    char *message = NULL;
    if (sqlite3_load_extension(database, words[1], NULL, &message) != SQLITE_OK) return fail(message);
    int status = strcmp(words[2], "run") == 0 ? run() : calls(atol(words[3]));
    return sqlite3_close(database) == SQLITE_OK ? status : fail("close");
}
