/* SPDX-License-Identifier: MIT
 * undrwyth orders: makes a GeoPackage with an empty table of orders, out of sqlite/orders.sql. SQLite's library is looked for when the
 * command runs, so that no other command needs it. */
#define _XOPEN_SOURCE 700
#include <dlfcn.h>
#include <errno.h>
#include <fcntl.h>
#include <string.h>
#include <unistd.h>

#include "command.h"

extern const unsigned char orders_table[], orders_table_end[];

/* What is used of SQLite's library, by its own names. */
static int (*open_database)(const char *, void **, int, const char *);
static int (*close_database)(void *);
static int (*run_sql)(void *, const char *, void *, void *, char **);
static int (*add_function)(void *, const char *, int, int, void *, void (*)(void), void *, void *);
static const char *(*last_error)(void *);
enum { READ_WRITE_CREATE = 2 | 4, TEXT_AND_DETERMINISTIC = 1 | 0x800 };

/* The address of a function; POSIX lets a pointer to an object hold it. */
static int find(void *library, const char *name, void *function) {
    void *found = dlsym(library, name);
    memcpy(function, &found, sizeof found);
    return found != NULL;
}

/* SQLite wants to know the functions that a constraint calls; while the table is empty, none is called. */
static void uncalled(void) {}

static int fill(void *database, const char *path) {
    static char text[8192];
    size_t n = (size_t)(orders_table_end - orders_table);
    if (n >= sizeof text) return fail("the table's text is too long");
    memcpy(text, orders_table, n);
    static const char *const names[] = {"undrwyth_is_room", "undrwyth_panels"};
    for (int i = 0; i < 2; i++)
        if (add_function(database, names[i], 1, TEXT_AND_DETERMINISTIC, NULL, uncalled, NULL, NULL) != 0) return fail("%s: %s", path, last_error(database));
    return run_sql(database, text, NULL, NULL, NULL) == 0 ? WHOLE : fail("%s cannot be written: %s", path, last_error(database));
}

int orders(char **words, int count) {
    if (count != 1 || words[0][0] == '-') return MISUSED;
    const char *path = words[0];
    void *library = dlopen("libsqlite3.so.0", RTLD_NOW), *database = NULL;
    if (library == NULL) return fail("SQLite is not there: %s; Debian has it in libsqlite3-0", dlerror());
    if (!find(library, "sqlite3_open_v2", &open_database) || !find(library, "sqlite3_close", &close_database) || !find(library, "sqlite3_exec", &run_sql) ||
        !find(library, "sqlite3_create_function", &add_function) || !find(library, "sqlite3_errmsg", &last_error))
        return fail("SQLite's library lacks a function: %s", dlerror());
    int file = open(path, O_WRONLY | O_CREAT | O_EXCL | O_CLOEXEC, 0666); /* it was not there, or this fails */
    if (file < 0) return fail("%s cannot be made: %s", path, strerror(errno));
    close(file);
    int status = open_database(path, &database, READ_WRITE_CREATE, NULL) == 0 ? fill(database, path) : fail("%s cannot be opened: %s", path, last_error(database));
    if (close_database(database) != 0 && status == WHOLE) status = fail("%s cannot be closed", path);
    if (status != WHOLE) unlink(path);
    return status;
}
