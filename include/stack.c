/* Measures the stack that each call of undrwyth.h needs: runs it on a painted stack and looks how far down the paint is
 * gone. Prints what it found, and fails if a call needs more than the header says. Then runs it on a stack of just
 * the size that the header says, above a page that cannot be touched. */
#define _DEFAULT_SOURCE
#define _XOPEN_SOURCE 700
#include <signal.h>
#include <stdio.h>
#include <string.h>
#include <sys/mman.h>
#include <ucontext.h>
#include <unistd.h>

#include "undrwyth.h"

enum { STACK_BYTES = 1 << 20, GUARD_BYTES = 1 << 16, PAINT = 0xa5, MOST = UNDRWYTH_MOST_STEPS };

static unsigned char *stack; /* its lowest byte; what lies below cannot be touched */
static ucontext_t here, there;

/* What the call takes. */
static uint8_t digits[MOST], bytes[UNDRWYTH_LINE_BYTES], file[UNDRWYTH_POINT_BYTES * MOST + 29];
static size_t count;
static uint32_t table[(4 * MOST + 68) * UNDRWYTH_RECORD_WORDS], marks[UNDRWYTH_MARK_WORDS * MOST];
static int32_t numbers[UNDRWYTH_CORNER_NUMBERS * (MOST + 1)], others[2][3 * MOST];
static uint8_t chain[MOST], round[2 * MOST];
static uint8_t both[2 * MOST], chains[2][2 * MOST];
static uint32_t shared[(8 * MOST + 136) * UNDRWYTH_PAIR_RECORD_WORDS], pair_marks[UNDRWYTH_MARK_WORDS * 2 * MOST];
static uint32_t answer[UNDRWYTH_WALK_TWO_ANSWER_WORDS];
static uint8_t rings[2][UNDRWYTH_POLYGON_HEADER_BYTES + 5 * UNDRWYTH_POINT_BYTES]; /* the highest byte first, the lowest */

static void nothing(void) {}

static void walk_from(int32_t x, int32_t y, size_t records) {
    undrwyth_walk(x, y, digits, count, table, records * UNDRWYTH_RECORD_WORDS, marks, UNDRWYTH_MARK_WORDS * count, chain,
                  count, answer);
}

/* From (0,0), and from two starts that are as far out as they may be; in one record, and in as many as a walk needs. */
static void walk(void) {
    for (size_t records = 1; records <= 4 * MOST + 68; records += 4 * MOST + 67) {
        walk_from(0, 0, records);
        walk_from(16384, 16384, records);
        walk_from(-16384, -16384, records);
    }
}

static void walk_two_from(int32_t x, int32_t y, size_t records) {
    undrwyth_walk_two(x, y, -x, y, both, 2 * count, shared, records * UNDRWYTH_PAIR_RECORD_WORDS, pair_marks,
                      UNDRWYTH_MARK_WORDS * 2 * count, chains[0], 2 * count, chains[1], 2 * count, answer);
}

/* The same for two parties, which walk the digits by turns, from one corner and from two that are far apart. */
static void walk_two(void) {
    for (size_t i = 0; i < 2 * count; i++)
        both[i] = (uint8_t)(16 * (i % 2) + digits[i / 2]);
    for (size_t all = 8 * count + 136, records = 1; records <= all; records += all - 1) {
        walk_two_from(0, 0, records);
        walk_two_from(16384, 16384, records);
        walk_two_from(-16384, -16384, records);
    }
}

static void hull(void) { undrwyth_hull(-16384, 16384, digits, count, numbers, sizeof numbers / sizeof numbers[0], answer); }

static void outline(void) { undrwyth_outline(16384, -16384, digits, count, round, sizeof round, answer); }

static void polygon(void) { undrwyth_polygon_of_room(-7, 5, digits, count, file, sizeof file, answer); }

static void rows(void) { undrwyth_rows(-7, 5, digits, count, numbers, sizeof numbers / sizeof numbers[0], answer); }

static void overlay(void) {
    undrwyth_overlay(-7, 5, digits, count, -6, 6, digits, count, numbers, sizeof numbers / sizeof numbers[0], others[0], 3 * MOST,
                     others[1], 3 * MOST, answer);
}

static void convex(void) { undrwyth_convex(-7, 5, digits, count, answer); }

/* In blocks of one panel, of some, and of as many as may be. */
static void orthogonal(void) {
    for (uint32_t grid = 1; grid <= UNDRWYTH_MOST_GRID; grid *= 128)
        undrwyth_orthogonal_hull(-7, 5, digits, count, grid, round, sizeof round, answer);
}

static void chain_of(void) {
    undrwyth_chain_of_polygon(rings[0], sizeof rings[0], chain, sizeof chain, answer);
    undrwyth_chain_of_polygon(rings[1], sizeof rings[1], chain, sizeof chain, answer);
}

static void turns(void) {
    undrwyth_turns_of_steps(digits, count, chain, count, answer);
    undrwyth_steps_of_turns(digits, count, chain, count, answer);
}

/* The digits as a frame of kind 00, as many as it may have; answers its length. */
static size_t framed(uint8_t *frame) {
    size_t most = count < UNDRWYTH_MOST_LINE_DIGITS ? count : UNDRWYTH_MOST_LINE_DIGITS;
    for (size_t i = 0; i < most; i++)
        frame[6 + i] = '0' + digits[i];
    for (size_t i = 0; i < 4; i++)
        frame[2 + i] = "0123456789abcdef"[most >> (12 - 4 * i) & 15];
    frame[0] = frame[1] = '0';
    return 6 + most;
}

static void line(void) {
    size_t n = framed(chain);
    for (; chain[1] < '3'; chain[1]++)
        undrwyth_line(chain, n, bytes, UNDRWYTH_LINE_BYTES);
}

static void convert_line(void) {
    size_t n = framed(chain);
    for (; chain[1] < '3'; chain[1]++)
        undrwyth_convert_line(chain, n, bytes, UNDRWYTH_LINE_BYTES);
}

/* Runs the call on a stack of this many bytes. */
static void run(void (*call)(void), size_t stack_bytes) {
    getcontext(&there);
    there.uc_stack.ss_sp = stack;
    there.uc_stack.ss_size = stack_bytes;
    there.uc_link = &here;
    makecontext(&there, call, 0);
    swapcontext(&here, &there);
}

/* The bytes of the stack that are not painted any more after the call. */
static size_t used(void (*call)(void)) {
    memset(stack, PAINT, STACK_BYTES);
    run(call, STACK_BYTES);
    size_t low = 0;
    while (low < STACK_BYTES && stack[low] == PAINT)
        low++;
    return STACK_BYTES - low;
}

/* Says on a stack of its own that a call went below its stack. */
static void below(int signal_number) {
    static const char message[] = "stack: a call touched the page below a stack of the size that the header says\n";
    (void)signal_number;
    if (write(STDERR_FILENO, message, sizeof message - 1) > 0)
        _exit(1);
    _exit(2);
}

static int make_stack(void) {
    static unsigned char other[1 << 16];
    stack_t handler_stack = {.ss_sp = other, .ss_size = sizeof other};
    struct sigaction action = {.sa_handler = below, .sa_flags = SA_ONSTACK};
    unsigned char *all =
        mmap(NULL, GUARD_BYTES + STACK_BYTES, PROT_READ | PROT_WRITE, MAP_PRIVATE | MAP_ANONYMOUS, -1, 0);
    stack = all + GUARD_BYTES;
    return all != MAP_FAILED && mprotect(all, GUARD_BYTES, PROT_NONE) == 0 && sigaltstack(&handler_stack, NULL) == 0 &&
           sigaction(SIGSEGV, &action, NULL) == 0 && sigaction(SIGBUS, &action, NULL) == 0;
}

/* How many columns the walk of the digits goes through. */
static size_t columns(void) {
    long x = 0, west = 0, east = 0;
    for (size_t i = 0; i < count; i++) {
        x += (digits[i] == 0) - (digits[i] == 2);
        west = x < west ? x : west;
        east = x > east ? x : east;
    }
    return (size_t)(east - west) + 1;
}

/* The calls whose working store is chosen by the columns of the walk, or by the steps of the chain. */
static void hull_256(void) { columns() <= 256 ? hull() : nothing(); }
static void hull_2048(void) { columns() <= 2048 ? hull() : nothing(); }
static void outline_256(void) { count <= 256 ? outline() : nothing(); }
static void outline_2048(void) { count <= 2048 ? outline() : nothing(); }
static void polygon_256(void) { count <= 256 ? polygon() : nothing(); }
static void polygon_2048(void) { count <= 2048 ? polygon() : nothing(); }
static void rows_256(void) { count <= 256 ? rows() : nothing(); }
static void rows_2048(void) { count <= 2048 ? rows() : nothing(); }
static void overlay_256(void) { count <= 256 ? overlay() : nothing(); }
static void overlay_2048(void) { count <= 2048 ? overlay() : nothing(); }
static void convex_256(void) { count <= 256 ? convex() : nothing(); }
static void convex_2048(void) { count <= 2048 ? convex() : nothing(); }
static void orthogonal_256(void) { count <= 256 ? orthogonal() : nothing(); }
static void orthogonal_2048(void) { count <= 2048 ? orthogonal() : nothing(); }

/* n digits of a kind: out along one axis and then along the other, so that a step crosses a border of the tree at every
 * level; a staircase; a spiral; steps at random, with and without take-backs; round a rectangle; east. */
static void fill(int kind, size_t n) {
    unsigned long random = n + 1;
    size_t surviving = 0;
    for (size_t i = 0, side = 0, left = 1; i < n; i++) {
        random = (random * 1103515245 + 12345) & 0x7fffffff;
        unsigned way = random >> 16;
        switch (kind) {
        case 0: case 1: case 2: case 3: way = i < n / 2 ? kind : kind + 1; break;
        case 4: case 5: case 6: case 7: way = i < n / 2 ? kind : kind + 3; break;
        case 8: way = i; way %= 2; break;
        case 9:
            way = side;
            if (--left == 0)
                left = ++side / 2 + 1;
            break;
        case 12: way = i / ((n + 3) / 4); break;
        case 13: way = 0; break;
        default: break;
        }
        digits[i] = way % 4;
        if (kind == 11 && surviving > 0 && (random >> 8) % 100 < 45)
            digits[i] = 4;
        surviving += digits[i] == 4 ? -1 : 1;
    }
    count = n;
}

/* A ring of five points with n steps, n even, there and back twice, in both byte orders. */
static void draw(size_t n) {
    static const uint8_t heads[2][9] = {{0, 0, 0, 0, 3, 0, 0, 0, 1}, {1, 3, 0, 0, 0, 1, 0, 0, 0}};
    for (int little = 0; little < 2; little++) {
        uint8_t *to = rings[little] + UNDRWYTH_POLYGON_HEADER_BYTES;
        memcpy(rings[little], heads[little], 9);
        rings[little][little ? 9 : 12] = 5;
        for (int i = 0; i < 10; i++) {
            double x = i == 2 || i == 6 ? 600.0 * (double)(n / 4) : 0;
            uint64_t bits;
            memcpy(&bits, &x, 8);
            for (int byte = 0; byte < 8; byte++)
                *to++ = (uint8_t)(bits >> (little ? 8 * byte : 56 - 8 * byte));
        }
    }
}

int main(void) {
    static const struct {
        const char *name;
        void (*call)(void);
        size_t told;
    } calls[] = {
        {"undrwyth_walk", walk, UNDRWYTH_WALK_STACK_BYTES},
        {"undrwyth_walk_two", walk_two, UNDRWYTH_WALK_TWO_STACK_BYTES},
        {"undrwyth_hull", hull, UNDRWYTH_HULL_STACK_BYTES},
        {"undrwyth_hull, at most 2,048 columns", hull_2048, UNDRWYTH_HULL_2048_STACK_BYTES},
        {"undrwyth_hull, at most 256 columns", hull_256, UNDRWYTH_HULL_256_STACK_BYTES},
        {"undrwyth_outline", outline, UNDRWYTH_OUTLINE_STACK_BYTES},
        {"undrwyth_outline, at most 2,048 steps", outline_2048, UNDRWYTH_OUTLINE_2048_STACK_BYTES},
        {"undrwyth_outline, at most 256 steps", outline_256, UNDRWYTH_OUTLINE_256_STACK_BYTES},
        {"undrwyth_polygon_of_room", polygon, UNDRWYTH_POLYGON_STACK_BYTES},
        {"undrwyth_polygon_of_room, at most 2,048 steps", polygon_2048, UNDRWYTH_POLYGON_2048_STACK_BYTES},
        {"undrwyth_polygon_of_room, at most 256 steps", polygon_256, UNDRWYTH_POLYGON_256_STACK_BYTES},
        {"undrwyth_rows", rows, UNDRWYTH_ROWS_STACK_BYTES},
        {"undrwyth_rows, at most 2,048 steps", rows_2048, UNDRWYTH_ROWS_2048_STACK_BYTES},
        {"undrwyth_rows, at most 256 steps", rows_256, UNDRWYTH_ROWS_256_STACK_BYTES},
        {"undrwyth_overlay", overlay, UNDRWYTH_OVERLAY_STACK_BYTES},
        {"undrwyth_overlay, at most 2,048 steps", overlay_2048, UNDRWYTH_OVERLAY_2048_STACK_BYTES},
        {"undrwyth_overlay, at most 256 steps", overlay_256, UNDRWYTH_OVERLAY_256_STACK_BYTES},
        {"undrwyth_convex", convex, UNDRWYTH_CONVEX_STACK_BYTES},
        {"undrwyth_convex, at most 2,048 steps", convex_2048, UNDRWYTH_CONVEX_2048_STACK_BYTES},
        {"undrwyth_convex, at most 256 steps", convex_256, UNDRWYTH_CONVEX_256_STACK_BYTES},
        {"undrwyth_orthogonal_hull", orthogonal, UNDRWYTH_ORTHOGONAL_STACK_BYTES},
        {"undrwyth_orthogonal_hull, at most 2,048 steps", orthogonal_2048, UNDRWYTH_ORTHOGONAL_2048_STACK_BYTES},
        {"undrwyth_orthogonal_hull, at most 256 steps", orthogonal_256, UNDRWYTH_ORTHOGONAL_256_STACK_BYTES},
        {"undrwyth_chain_of_polygon", chain_of, UNDRWYTH_CHAIN_STACK_BYTES},
        {"undrwyth_turns_of_steps, undrwyth_steps_of_turns", turns, UNDRWYTH_TURNS_STACK_BYTES},
        {"undrwyth_line", line, UNDRWYTH_LINE_STACK_BYTES},
        {"undrwyth_convert_line", convert_line, UNDRWYTH_CONVERT_LINE_STACK_BYTES},
    };
    static const size_t lengths[] = {0, 1, 64, 255, 256, 319, 1000, 1024, 2047, 2048, 4096, 16383, 16384};
    enum { CALLS = sizeof calls / sizeof calls[0], LENGTHS = sizeof lengths / sizeof lengths[0], KINDS = 14 };
    size_t most[CALLS] = {0};
    int failures = 0;
    if (!make_stack()) {
        perror("stack");
        return 2;
    }
    size_t around = used(nothing); /* what the call's surroundings take of the stack */
    for (int guarded = 0; guarded < 2 && failures == 0; guarded++) {
        for (size_t l = 0; l < LENGTHS; l++)
            for (int kind = 0; kind < KINDS; kind++) {
                fill(kind, lengths[l]);
                draw(lengths[l]);
                for (size_t c = 0; c < CALLS; c++) {
                    if (guarded) {
                        run(calls[c].call, (calls[c].told + around + 15) / 16 * 16);
                        continue;
                    }
                    size_t now = used(calls[c].call) - around;
                    most[c] = now > most[c] ? now : most[c];
                }
            }
        for (size_t c = 0; c < CALLS && !guarded; c++) {
            printf("%s: %zu bytes of stack, %zu in the header\n", calls[c].name, most[c], calls[c].told);
            failures += most[c] > calls[c].told;
        }
        fflush(stdout);
    }
    return failures != 0;
}
