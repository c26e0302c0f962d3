/* SPDX-License-Identifier: MIT
 * undrwyth parts: cuts a file of records into parts, answers a part, and joins the answers. A theorem says that the joined answers are
 * those of one run (docs/SCALE.md); the files here see to it that each part is there once, whole, and answered for these records. */
#define _XOPEN_SOURCE 700
#include <dirent.h>
#include <errno.h>
#include <fcntl.h>
#include <stdio.h>
#include <stdlib.h>
#include <string.h>
#include <sys/stat.h>
#include <unistd.h>

#include "command.h"
#include "checksum.h"

int judge_main(int, char **), convert_main(int, char **), rows_main(int, char **);

enum { MOST_PARTS = 999999, PATH_BYTES = 4096, CHUNK = 1 << 16 };

static const char *folder;
static unsigned char chunk[CHUNK];

/* What the manifest says of the input or of a part, or the note of an attempt says of its answers. */
struct file {
    unsigned long long lines, bytes;
    char sum[SUM_DIGITS + 1];
};

/* Writes the path of a part's file, or of another file of the folder if the number is 0. */
static const char *path_of(char path[PATH_BYTES], unsigned long number, const char *ending) {
    int n = number == 0 ? snprintf(path, PATH_BYTES, "%s/%s", folder, ending)
                        : snprintf(path, PATH_BYTES, "%s/part.%06lu%s", folder, number, ending);
    return n < PATH_BYTES ? path : "";
}

static int cannot(const char *what, const char *path) {
    return fail("%s cannot be %s: %s", path, what, strerror(errno));
}

/* Opens a file that is not there yet. */
static int make_file(const char *path) {
    int low = open(path, O_WRONLY | O_CREAT | O_EXCL | O_CLOEXEC, 0666);
    if (low < 0 || low > 2) return low;
    int high = fcntl(low, F_DUPFD_CLOEXEC, 3);
    close(low);
    return high;
}

static int put(int file, const void *from, size_t n) {
    const unsigned char *at = from;
    while (n > 0) {
        ssize_t done = write(file, at, n);
        if (done < 0 && errno == EINTR) continue;
        if (done < 0) return -1;
        at += done;
        n -= (size_t)done;
    }
    return 0;
}

/* Closes a file whose bytes have to be on the disk: 0, or -1. */
static int keep(int file) {
    int kept = fsync(file) == 0 || errno == EINVAL || errno == EROFS;
    return close(file) == 0 && kept ? 0 : -1;
}

static ssize_t take(int file, void *to, size_t n) {
    ssize_t got;
    do got = read(file, to, n);
    while (got < 0 && errno == EINTR);
    return got;
}

/* Counts and sums up a file; its bytes also go to descriptor `to` if that is not negative. 0, or -1. */
static int look(const char *path, struct file *seen, int to) {
    int file = open(path, O_RDONLY | O_CLOEXEC);
    struct sum sum;
    ssize_t got;
    if (file < 0) return -1;
    sum_begin(&sum);
    *seen = (struct file){0};
    while ((got = take(file, chunk, CHUNK)) > 0) {
        sum_add(&sum, chunk, (size_t)got);
        if (to >= 0 && put(to, chunk, (size_t)got) < 0) break;
    }
    int error = errno;
    close(file);
    errno = error;
    seen->bytes = sum.bytes;
    sum_end(&sum, seen->sum);
    return got == 0 ? 0 : -1;
}

/* ---- split ---- */

static int manifest = -1;
static struct sum whole;
static unsigned long parts_made;
static unsigned long long whole_lines;

/* A part that is being written. */
static struct {
    int file;
    struct file said;
    struct sum sum;
} part = {-1, {0}, {{0}, 0, {0}}};

static int note(const char *format, unsigned long number, const struct file *said) {
    char line[256];
    int n = snprintf(line, sizeof line, format, number, said->lines, said->bytes, said->sum);
    return put(manifest, line, (size_t)n);
}

static int end_part(void) {
    if (part.file < 0) return 0;
    part.said.bytes = part.sum.bytes;
    sum_end(&part.sum, part.said.sum);
    int kept = keep(part.file);
    part.file = -1;
    return kept == 0 ? note("part %06lu %llu %llu %s\n", parts_made, &part.said) : -1;
}

static int begin_part(void) {
    char path[PATH_BYTES];
    if (parts_made == MOST_PARTS) return errno = EFBIG, -1;
    part.file = make_file(path_of(path, ++parts_made, ""));
    part.said = (struct file){0};
    sum_begin(&part.sum);
    return part.file < 0 ? -1 : 0;
}

/* Writes some bytes of the input; a part ends after its last line feed. 0, or -1. */
static int cut(const unsigned char *from, size_t n, unsigned long long most) {
    sum_add(&whole, from, n);
    while (n > 0) {
        size_t end = 0;
        if (part.file < 0 && begin_part() < 0) return -1;
        while (end < n && part.said.lines < most) {
            const unsigned char *feed = memchr(from + end, '\n', n - end);
            end = feed == NULL ? n : (size_t)(feed - from) + 1;
            part.said.lines += feed != NULL;
        }
        sum_add(&part.sum, from, end);
        if (put(part.file, from, end) < 0) return -1;
        from += end;
        n -= end;
        if (part.said.lines == most) {
            whole_lines += most;
            if (end_part() < 0) return -1;
        }
    }
    return 0;
}

static int split(const char *records, unsigned long long most) {
    char path[PATH_BYTES], attempt[PATH_BYTES];
    struct file said = {0};
    ssize_t got;
    if (take_files(0, (char *[]){(char *)records}, 1, 0) != WHOLE) return FAILED;
    if (mkdir(folder, 0777) < 0 && errno != EEXIST) return cannot("made", folder);
    if (access(path_of(path, 0, "manifest"), F_OK) == 0) return fail("%s is there already: give a new folder", path);
    manifest = make_file(path_of(attempt, 0, "manifest.attempt"));
    if (manifest < 0) return cannot("made", attempt);
    if (put(manifest, "undrwyth parts 1\n", 17) < 0) return cannot("written", attempt);
    sum_begin(&whole);
    while ((got = next_bytes(0, chunk, CHUNK)) > 0)
        if (cut(chunk, (size_t)got, most) < 0) return fail("part %lu cannot be written: %s", parts_made, strerror(errno));
    if (got < 0) return unread(", and the parts are not whole");
    if (part.file >= 0) {
        part.said.lines += line_is_open(); /* a last line that lacks its line feed */
        whole_lines += part.said.lines;
        if (end_part() < 0) return fail("part %lu cannot be written: %s", parts_made, strerror(errno));
    }
    said.lines = whole_lines;
    said.bytes = whole.bytes;
    sum_end(&whole, said.sum);
    if (note("input %lu %llu %llu %s\nend\n", parts_made, &said) < 0 || keep(manifest) < 0) return cannot("written", attempt);
    if (rename(attempt, path) < 0) return cannot("made", path);
    printf("%lu part%s, %llu line%s\n", parts_made, parts_made == 1 ? "" : "s", whole_lines, whole_lines == 1 ? "" : "s");
    return fflush(stdout) == 0 ? WHOLE : fail("a write to standard output failed: %s", strerror(errno));
}

/* ---- the manifest ---- */

static struct file *said_parts; /* one for each part, from 1 */
static unsigned long said_count;

/* Reads the manifest; it is whole only if it ends as split ends it. */
static int read_manifest(void) {
    char path[PATH_BYTES], line[256];
    struct file said;
    unsigned long number, count = 0, all = 0;
    unsigned long long lines = 0, bytes = 0;
    size_t size = 0;
    int ended = 0, good;
    FILE *file = fopen(path_of(path, 0, "manifest"), "r");
    if (file == NULL) return cannot("opened", path);
    good = fgets(line, sizeof line, file) != NULL && strcmp(line, "undrwyth parts 1\n") == 0;
    while (good && !ended && fgets(line, sizeof line, file) != NULL) {
        if (sscanf(line, "part %lu %llu %llu %64s", &number, &said.lines, &said.bytes, said.sum) == 4) {
            good = number == count + 1 && strlen(said.sum) == SUM_DIGITS;
            if (++count >= size) {
                size = 2 * count + 64;
                said_parts = realloc(said_parts, size * sizeof *said_parts);
                if (said_parts == NULL) return fail("there is not enough memory for the manifest");
            }
            said_parts[count] = said;
            lines += said.lines;
            bytes += said.bytes;
        } else if (sscanf(line, "input %lu %llu %llu %64s", &all, &said.lines, &said.bytes, said.sum) == 4) {
            good = all == count && said.lines == lines && said.bytes == bytes;
            ended = good && fgets(line, sizeof line, file) != NULL && strcmp(line, "end\n") == 0;
        } else good = 0;
    }
    int unread = ferror(file), error = errno;
    fclose(file);
    errno = error;
    if (unread) return cannot("read", path);
    if (!ended || !good) return fail("%s is not a whole manifest", path);
    said_count = count;
    return WHOLE;
}

/* ---- answer ---- */

static int (*program_of(const char *command))(int, char **) {
    if (strcmp(command, "judge") == 0) return judge_main;
    if (strcmp(command, "convert") == 0) return convert_main;
    return strcmp(command, "rows") == 0 ? rows_main : NULL;
}

/* Writes the note of a part that was answered, under the name of this attempt. */
static int write_note(const char *path, const char *command, const struct file *answers, unsigned long number) {
    char line[256];
    int n = snprintf(line, sizeof line, "%s %s %llu %s\n", command, said_parts[number].sum, answers->bytes, answers->sum);
    int file = make_file(path);
    if (file < 0) return -1;
    if (put(file, line, (size_t)n) < 0) return close(file), -1;
    return keep(file);
}

/* Answers the part into the file of this attempt, which becomes standard output. */
static int answer_into(const char *attempt, const char *command, char *from) {
    int file = make_file(attempt);
    if (file < 0) return cannot("made", attempt);
    if (dup2(file, 1) < 0 || close(file) < 0) return cannot("written", attempt);
    if (take_files(0, &from, 1, 0) != WHOLE) return FAILED;
    if (run_lines(program_of(command), 0) != WHOLE) return FAILED;
    return fsync(1) == 0 || errno == EINVAL || errno == EROFS ? WHOLE : cannot("written", attempt);
}

static int answer(const char *command, unsigned long number) {
    char from[PATH_BYTES], to[PATH_BYTES], done[PATH_BYTES], attempt[PATH_BYTES], noted[PATH_BYTES], ending[400], host[256] = "";
    struct file seen;
    if (number == 0 || number > said_count) return fail("there is no part %lu: the manifest has %lu parts", number, said_count);
    if (look(path_of(from, number, ""), &seen, -1) < 0) return cannot("read", from);
    if (seen.bytes != said_parts[number].bytes || strcmp(seen.sum, said_parts[number].sum) != 0)
        return fail("part %lu is not the one that was cut: its checksum is not the manifest's", number);
    gethostname(host, sizeof host - 1);
    snprintf(ending, sizeof ending, ".attempt.%s.%ld", host, (long)getpid());
    path_of(attempt, number, ending);
    snprintf(ending, sizeof ending, ".note.attempt.%s.%ld", host, (long)getpid());
    path_of(noted, number, ending);
    path_of(to, number, ".answers");
    path_of(done, number, ".done");
    unlink(attempt); /* of an earlier run that had the same number */
    unlink(noted);
    int status = answer_into(attempt, command, from);
    if (status == WHOLE && (look(attempt, &seen, -1) < 0 || write_note(noted, command, &seen, number) < 0)) status = cannot("written", attempt);
    if (status == WHOLE && (rename(attempt, to) < 0 || rename(noted, done) < 0)) status = cannot("named", to);
    if (status != WHOLE) unlink(attempt), unlink(noted);
    return status;
}

/* ---- missing and join ---- */

/* What is wrong with the answers of a part, or NULL. With `whole` their bytes are summed up too. */
static const char *fault_of(unsigned long number, char command[16], int whole) {
    static char why[300];
    char path[PATH_BYTES], by[16], of[SUM_DIGITS + 1], sum[SUM_DIGITS + 1], more;
    unsigned long long bytes;
    struct file seen;
    struct stat state;
    FILE *file = fopen(path_of(path, number, ".done"), "r");
    if (file == NULL && errno != ENOENT) return snprintf(why, sizeof why, "its note cannot be opened: %s", strerror(errno)), why;
    if (file == NULL) return "it has no answers yet";
    int fields = fscanf(file, "%15s %64s %llu %64s%c", by, of, &bytes, sum, &more);
    fclose(file);
    if (fields != 5 || more != '\n' || program_of(by) == NULL) return "its note is not whole";
    if (strcmp(of, said_parts[number].sum) != 0) return "its answers are those of another part";
    if (command[0] == 0) strcpy(command, by);
    if (strcmp(command, by) != 0) return snprintf(why, sizeof why, "it was answered by %s, and others by %s", by, command), why;
    if (stat(path_of(path, number, ".answers"), &state) < 0) return snprintf(why, sizeof why, "its answers cannot be read: %s", strerror(errno)), why;
    if ((unsigned long long)state.st_size != bytes) return "its answers are not whole: their length is not the note's";
    if (!whole) return NULL;
    if (look(path, &seen, -1) < 0) return snprintf(why, sizeof why, "its answers cannot be read: %s", strerror(errno)), why;
    return strcmp(seen.sum, sum) == 0 ? NULL : "its answers are not those that were written: their checksum is not the note's";
}

/* A file of a part that the manifest does not have: its number, or 0. */
static unsigned long strange_part(void) {
    DIR *open = opendir(folder);
    unsigned long strange = 0;
    if (open == NULL) return 0;
    for (struct dirent *entry; strange == 0 && (entry = readdir(open)) != NULL;)
        if (strncmp(entry->d_name, "part.", 5) == 0) {
            unsigned long number = strtoul(entry->d_name + 5, NULL, 10);
            if (number == 0 || number > said_count) strange = number == 0 ? MOST_PARTS + 1 : number;
        }
    closedir(open);
    return strange;
}

static int missing(void) {
    for (unsigned long i = 1; i <= said_count; i++) {
        char command[16] = "";
        if (fault_of(i, command, 0) != NULL) printf("%lu\n", i);
    }
    return fflush(stdout) == 0 ? WHOLE : fail("a write to standard output failed: %s", strerror(errno));
}

static int join(void) {
    char path[PATH_BYTES], command[16] = "";
    unsigned long faults = 0, strange = strange_part();
    struct file seen;
    if (strange > MOST_PARTS) return fail("%s has a file part. with another name than split gives: nothing is joined", folder);
    if (strange > 0) return fail("part %lu is not in the manifest, which has %lu: nothing is joined", strange, said_count);
    for (unsigned long i = 1; i <= said_count; i++) {
        const char *fault = fault_of(i, command, 1);
        if (fault == NULL) continue;
        if (++faults <= 20) fail("part %lu: %s", i, fault);
    }
    if (faults > 0) return fail("%lu of %lu parts are at fault: nothing is joined", faults, said_count);
    for (unsigned long i = 1; i <= said_count; i++) {
        const char *fault;
        if (look(path_of(path, i, ".answers"), &seen, 1) < 0) return fail("the answers of part %lu cannot be written: %s", i, strerror(errno));
        if ((fault = fault_of(i, command, 0)) != NULL) return fail("part %lu changed while it was joined: %s", i, fault);
    }
    return WHOLE;
}

/* ---- the words of the command ---- */

/* A whole number from 1 to most, or 0. */
static unsigned long number_of(const char *word, unsigned long most) {
    char *end;
    if (word[0] < '0' || word[0] > '9') return 0;
    errno = 0;
    unsigned long number = strtoul(word, &end, 10);
    return errno == 0 && *end == 0 && number <= most ? number : 0;
}

int parts(char **words, int count) {
    unsigned long most = 100000;
    if (fcntl(1, F_GETFD) < 0) return fail("standard output is closed");
    if (count >= 3 && strcmp(words[0], "split") == 0) {
        if (count == 5 && strcmp(words[1], "--lines") == 0) {
            most = number_of(words[2], 1000000000);
            words += 2;
            count -= 2;
        }
        if (count != 3 || most == 0) return MISUSED;
        folder = words[2];
        return split(words[1], most);
    }
    if (count < 2) return MISUSED;
    folder = words[count == 4 ? 2 : 1];
    if (count == 4 && strcmp(words[0], "answer") == 0 && program_of(words[1]) != NULL) {
        unsigned long number = number_of(words[3], MOST_PARTS);
        if (number == 0) return MISUSED;
        return read_manifest() == WHOLE ? answer(words[1], number) : FAILED;
    }
    if (count == 2 && strcmp(words[0], "missing") == 0) return read_manifest() == WHOLE ? missing() : FAILED;
    if (count == 2 && strcmp(words[0], "join") == 0) return read_manifest() == WHOLE ? join() : FAILED;
    return MISUSED;
}
