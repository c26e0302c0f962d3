/* SPDX-License-Identifier: MIT
 * The answers of the library's calls in words. python/undrwyth says the same; the gate compares.
 *
 * Each function is pure: it has no state, allocates nothing, and needs only undrwyth.h and string.h. A sentence is written as
 * snprintf writes: at most `room` bytes with the zero byte that ends it, and the result is the length of the whole sentence.
 * UNDRWYTH_SENTENCE_BYTES are enough for every sentence. */
#ifndef UNDRWYTH_WORDS_H
#define UNDRWYTH_WORDS_H

#include "undrwyth.h"

#define UNDRWYTH_SENTENCE_BYTES 192
#define UNDRWYTH_FAULT_BYTES 24

/* A walk that was accepted: "a room of 24 panels, 20 steps, counterclockwise". It starts at (x,y); `answer` is what undrwyth_walk
 * answered, and `chain` has the surviving steps; only those before the first meeting are looked at. */
size_t undrwyth_walk_sentence(char *out, size_t room, int32_t x, int32_t y, const uint8_t *chain,
                              const uint32_t answer[UNDRWYTH_WALK_ANSWER_WORDS]);

/* A refusal: "byte 5 at place 0 is not a digit from 0 to 4". `fault` names what stands at the place, as the functions below do, and
 * may be null; `most` is the greatest digit that the call takes there, 4 in a walk and 3 elsewhere. */
size_t undrwyth_refusal_sentence(char *out, size_t room, uint32_t number, uint32_t place, const char *fault, unsigned most);

/* What stands at a faulty place, for the sentence above: a byte by its number, "byte 5"; or the first character of a text of n
 * bytes, "'x'": a digit is "byte 5" again, and what cannot be shown is written as in Python. */
void undrwyth_byte_fault(char out[UNDRWYTH_FAULT_BYTES], unsigned byte);
void undrwyth_text_fault(char out[UNDRWYTH_FAULT_BYTES], const uint8_t *text, size_t n);

/* Two rooms that were laid over each other: "12 panels in the first only, 1 panel in the second only, 4 panels in both". */
size_t undrwyth_overlay_sentence(char *out, size_t room, const uint32_t answer[UNDRWYTH_OVERLAY_ANSWER_WORDS]);

/* The orthogonal hull of a room in blocks of this size: "an orthogonal hull of 4 blocks of 2 by 2 panels, 8 steps", and if a block
 * is a panel "an orthogonal hull of 6 panels, 10 steps". */
size_t undrwyth_orthogonal_sentence(char *out, size_t room, uint32_t grid, const uint32_t answer[UNDRWYTH_ORTHOGONAL_ANSWER_WORDS]);

/* "convex", or "not convex". */
const char *undrwyth_convex_word(const uint32_t answer[UNDRWYTH_CONVEX_ANSWER_WORDS]);

/* The name of a verdict or a refusal, as the header has it, in lower case: "closed_meeting", "bad_digit". For a number that is none
 * it is "unknown". */
const char *undrwyth_verdict_name(uint32_t verdict);
const char *undrwyth_refusal_name(uint32_t number);

#endif
