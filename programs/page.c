/* SPDX-License-Identifier: MIT
 * Writes the page: web/page.html with its style, its modules in one script, and the proved WebAssembly module inside. */
#define _XOPEN_SOURCE 700
#include <errno.h>
#include <string.h>

#include "command.h"
#include "undrwyth.h"

#define TEXT(name) extern const unsigned char name[], name##_end[]
TEXT(page_template);
TEXT(page_style);
TEXT(page_module);
TEXT(page_undrwyth);
TEXT(page_words);
TEXT(page_picture);
TEXT(page_save);
TEXT(page_record);
TEXT(page_parts);
TEXT(page_sheet);
TEXT(page_walk);
TEXT(page_list);
TEXT(page_rooms);
TEXT(page_tenants);
TEXT(page_page);
#define OF(name) {name, name##_end}

enum { MOST = 250000 }; /* bytes of the page */

static unsigned char held[MOST];
static size_t count; /* of bytes that were put; more than MOST are not kept */

static void put(const void *from, size_t n) {
    if (n <= MOST - count) memcpy(held + count, from, n);
    count = n <= MOST - count ? count + n : MOST;
}

static void put_text(struct text text) {
    put(text.from, (size_t)(text.to - text.from));
}

static int begins(const unsigned char *from, const unsigned char *to, const char *word) {
    size_t n = strlen(word);
    return (size_t)(to - from) >= n && memcmp(from, word, n) == 0;
}

/* A module as a part of the one script: without its imports, and nothing is exported. */
static void put_script(struct text module) {
    const unsigned char *line = module.from;
    while (line < module.to) {
        const unsigned char *feed = memchr(line, '\n', (size_t)(module.to - line));
        const unsigned char *next = feed != NULL ? feed + 1 : module.to;
        if (begins(line, next, "export ")) line += strlen("export ");
        if (!begins(line, next, "import ")) put(line, (size_t)(next - line));
        line = next;
    }
}

static void put_base64(struct text bytes) {
    static const char digits[] = "ABCDEFGHIJKLMNOPQRSTUVWXYZabcdefghijklmnopqrstuvwxyz0123456789+/";
    for (const unsigned char *at = bytes.from; at < bytes.to; at += 3) {
        size_t n = (size_t)(bytes.to - at);
        unsigned three = (unsigned)at[0] << 16 | (n > 1 ? (unsigned)at[1] << 8 : 0) | (n > 2 ? at[2] : 0);
        char four[] = {digits[three >> 18], digits[three >> 12 & 63], '=', '='};
        if (n > 1) four[2] = digits[three >> 6 & 63];
        if (n > 2) four[3] = digits[three & 63];
        put(four, sizeof four);
    }
}

/* What stands in the template for @ and a word: how many bytes the word has, or 0. */
static size_t put_part(const unsigned char *from, const unsigned char *to) {
    static const struct text scripts[] = {
        OF(page_undrwyth), OF(page_words), OF(page_picture), OF(page_save), OF(page_record), OF(page_parts),
        OF(page_sheet), OF(page_walk), OF(page_list), OF(page_rooms), OF(page_tenants), OF(page_page),
    };
    if (begins(from, to, "@style")) {
        put_text((struct text)OF(page_style));
        return strlen("@style");
    }
    if (begins(from, to, "@module")) {
        put_base64((struct text)OF(page_module));
        return strlen("@module");
    }
    if (begins(from, to, "@version")) {
        put(UNDRWYTH_VERSION, strlen(UNDRWYTH_VERSION));
        return strlen("@version");
    }
    if (begins(from, to, "@script")) {
        for (size_t i = 0; i < sizeof scripts / sizeof *scripts; i++) put_script(scripts[i]);
        return strlen("@script");
    }
    return 0;
}

int page(void) {
    static const struct text template = OF(page_template);
    for (const unsigned char *at = template.from; at < template.to;) {
        size_t word = *at == '@' ? put_part(at, template.to) : 0;
        if (word == 0) put(at, 1);
        at += word > 0 ? word : 1;
    }
    if (count == MOST) return fail("the page would have more than %d bytes", MOST);
    if (write_bytes(held, count) < 0) return fail("a write to standard output failed: %s", strerror(errno));
    return WHOLE;
}
