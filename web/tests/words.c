/* SPDX-License-Identifier: MIT
 * Says the sentences of programs/words.c for the check of the page. A line of the input is a letter and numbers: W the start, the
 * words of an answer to a walk and its chain; R number, place, most and what is faulty (- for nothing); O the words of an answer
 * to two rooms; G a grid size and the words of an answer to an orthogonal hull; C convex; V and N the number of a verdict or a refusal; F a text whose first character is named. */
#include <stdio.h>
#include <string.h>

#include "words.h"

static char line[1 << 17], out[UNDRWYTH_SENTENCE_BYTES];

static const char *next_word(void) {
    return strtok(NULL, " \n");
}

static int number(void) {
    int found = 0;
    const char *word = next_word();
    if (word != NULL) sscanf(word, "%d", &found);
    return found;
}

static void words_into(uint32_t *answer, size_t n) {
    for (size_t i = 0; i < n; i++) answer[i] = (uint32_t)number();
}

static const char *walk(void) {
    static uint8_t chain[1 << 16];
    uint32_t answer[UNDRWYTH_WALK_ANSWER_WORDS];
    int x = number(), y = number();
    words_into(answer, UNDRWYTH_WALK_ANSWER_WORDS);
    const char *digits = next_word();
    for (size_t i = 0; digits != NULL && digits[i] != 0; i++) chain[i] = (uint8_t)(digits[i] - '0');
    undrwyth_walk_sentence(out, sizeof out, x, y, chain, answer);
    return out;
}

static const char *refusal(void) {
    int kind = number(), place = number(), most = number();
    const char *fault = strtok(NULL, "\n");
    if (strcmp(fault, "-") == 0) fault = NULL;
    undrwyth_refusal_sentence(out, sizeof out, (uint32_t)kind, (uint32_t)place, fault, (unsigned)most);
    return out;
}

static const char *overlay(void) {
    uint32_t answer[UNDRWYTH_OVERLAY_ANSWER_WORDS];
    words_into(answer, UNDRWYTH_OVERLAY_ANSWER_WORDS);
    undrwyth_overlay_sentence(out, sizeof out, answer);
    return out;
}

static const char *orthogonal(void) {
    uint32_t answer[UNDRWYTH_ORTHOGONAL_ANSWER_WORDS], grid = (uint32_t)number();
    words_into(answer, UNDRWYTH_ORTHOGONAL_ANSWER_WORDS);
    undrwyth_orthogonal_sentence(out, sizeof out, grid, answer);
    return out;
}

static const char *convex(void) {
    uint32_t answer[UNDRWYTH_CONVEX_ANSWER_WORDS] = {0, 0, (uint32_t)number()};
    return undrwyth_convex_word(answer);
}

static const char *fault(void) {
    static char named[UNDRWYTH_FAULT_BYTES];
    const char *text = line + 2;
    size_t n = strlen(text);
    if (n > 0 && text[n - 1] == '\n') n--;
    undrwyth_text_fault(named, (const uint8_t *)text, n);
    return named;
}

int main(void) {
    while (fgets(line, sizeof line, stdin) != NULL) {
        char kind = line[0];
        if (kind == 'F') {
            puts(fault());
            continue;
        }
        strtok(line, " \n");
        switch (kind) {
        case 'W': puts(walk()); break;
        case 'R': puts(refusal()); break;
        case 'O': puts(overlay()); break;
        case 'G': puts(orthogonal()); break;
        case 'C': puts(convex()); break;
        case 'V': puts(undrwyth_verdict_name((uint32_t)number())); break;
        default: puts(undrwyth_refusal_name((uint32_t)number())); break;
        }
    }
    return 0;
}
