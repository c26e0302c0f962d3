// SPDX-License-Identifier: MIT
// The line program: answers each line of the standard input.
#include <cstdio>
#include <cstdlib>
#include <sys/types.h>

#include "line.h"

static Line one;

int main() {
    char *line = nullptr;
    size_t room = 0;
    uint8_t out[UNDRWYTH_LINE_BYTES + 1];
    for (ssize_t n; (n = getline(&line, &room, stdin)) > 0;) {
        n -= line[n - 1] == '\n';
        size_t bytes = one.answer(reinterpret_cast<uint8_t *>(line), n, out);
        out[bytes] = '\n';
        fwrite_unlocked(out, 1, bytes + 1, stdout);
    }
    free(line);
    return fflush(stdout) != 0;
}
