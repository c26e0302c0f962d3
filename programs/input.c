/* SPDX-License-Identifier: MIT
 * The inputs of a command: a sample, files one after the other, or standard input. An argument may be a record too. */
#define _XOPEN_SOURCE 700
#include <errno.h>
#include <fcntl.h>
#include <string.h>
#include <sys/stat.h>
#include <unistd.h>

#include "command.h"

static struct input {
    struct text text;    /* of a sample or a record: what is left of it */
    char **files;
    int left;            /* files that are still to be opened */
    int now;             /* the descriptor that is read, or -1 */
    int records;         /* an argument may be a record */
    int spoken;          /* each is one */
    const char *name;
    unsigned char last;  /* the last byte that was read */
} inputs[INPUTS] = {{.now = -1, .name = "standard input", .last = '\n'}, {.now = -1, .name = "standard input", .last = '\n'}};
static const char *unreadable = "standard input"; /* what was read last */

void take_sample(int input, struct text of) {
    inputs[input].text = of;
}

void take_record(int input, const char *record) {
    const unsigned char *from = (const unsigned char *)(*record != 0 ? record : "\n");
    take_sample(input, (struct text){from, from + strlen((const char *)from)});
    inputs[input].spoken = 1;
}

/* Opens a file by its name; - is standard input. No file becomes descriptor 0, 1 or 2, though these may be closed. */
static int opened(const char *file) {
    if (strcmp(file, "-") == 0) return 0;
    int low = open(file, O_RDONLY | O_CLOEXEC);
    if (low < 0 || low > 2) return low;
    int high = fcntl(low, F_DUPFD_CLOEXEC, 3);
    close(low);
    return high;
}

/* Whether a file was not opened since there is none of that name; a long record is longer than any name. */
static int names_nothing(void) {
    return errno == ENOENT || errno == ENAMETOOLONG;
}

/* Whether an argument that is not the name of a file is read as a record: after its last comma stand only digits, or a frame. */
static int is_record(const char *word) {
    const char *comma = strrchr(word, ','), *at = comma != NULL ? comma + 1 : word;
    size_t n = strlen(at);
    if (n > 0 && strspn(at, "0123456789") == n) return 1;
    return n >= 6 && at[0] == '0' && (at[1] == '0' || at[1] == '1') && strspn(at, "0123456789abcdef") == n;
}

int take_files(int input, char **given, int count, int records) {
    static char *standard[] = {"-"};
    struct input *in = &inputs[input];
    in->files = count > 0 ? given : standard;
    in->left = count > 0 ? count : 1;
    in->records = records;
    in->spoken = 1;
    for (int i = 0; i < in->left; i++) {
        int file = opened(in->files[i]);
        if (file < 0 && names_nothing() && records && is_record(in->files[i])) continue;
        in->spoken = 0;
        if (file < 0) return fail("%s cannot be opened: %s", in->files[i], strerror(errno));
        if (file > 0) close(file);
        else if (fcntl(0, F_GETFD) < 0) return fail("standard input is closed");
    }
    return WHOLE;
}

int is_spoken(int input) {
    return inputs[input].spoken;
}

/* Goes on to the next file: whether there is one, or -1. */
static int next_file(struct input *in) {
    if (in->now > 0) close(in->now);
    in->now = -1;
    if (in->left == 0) return 0;
    const char *file = *in->files++;
    in->left--;
    in->name = strcmp(file, "-") == 0 ? "standard input" : file;
    in->now = opened(file);
    if (in->now < 0 && names_nothing() && in->records && is_record(file)) {
        const unsigned char *from = (const unsigned char *)file;
        in->text = (struct text){from, from + strlen(file)};
        return 1;
    }
    return in->now < 0 ? -1 : 1;
}

ssize_t next_bytes(int input, unsigned char *to, size_t n) {
    struct input *in = &inputs[input];
    ssize_t got = 0;
    while (got == 0) {
        if (in->text.from < in->text.to) {
            got = in->text.to - in->text.from;
            if ((size_t)got > n) got = (ssize_t)n;
            memcpy(to, in->text.from, (size_t)got);
            in->text.from += got;
        } else if (in->now < 0) {
            int more = next_file(in);
            unreadable = in->name;
            if (more <= 0) return more;
            if (in->last != '\n') {
                to[0] = '\n';
                got = 1;
            }
        } else {
            unreadable = in->name;
            do got = read(in->now, to, n);
            while (got < 0 && errno == EINTR);
            if (got < 0) return -1;
            if (got == 0) {
                if (in->left == 0) return 0;
                if (in->now > 0) close(in->now);
                in->now = -1;
            }
        }
    }
    in->last = to[got - 1];
    return got;
}

int line_is_open(void) {
    return inputs[0].last != '\n';
}

int unread(const char *lost) {
    return fail("a read from %s failed: %s%s", unreadable, strerror(errno), lost);
}

int write_bytes(const void *from, size_t n) {
    const unsigned char *at = from;
    while (n > 0) {
        ssize_t done = write(1, at, n);
        if (done < 0 && errno == EINTR) continue;
        if (done < 0) return -1;
        at += done;
        n -= (size_t)done;
    }
    return 0;
}

int is_read(const char *file) {
    struct stat it, other;
    if (stat(file, &it) != 0) return 0;
    for (int i = 0; i < inputs[0].left; i++) {
        const char *name = inputs[0].files[i];
        if ((strcmp(name, "-") == 0 ? fstat(0, &other) : stat(name, &other)) == 0 && S_ISREG(it.st_mode) && it.st_dev == other.st_dev && it.st_ino == other.st_ino) return 1;
    }
    return 0;
}
