/* What README and include/bulhyemik.h say of the calls' surroundings: how much stack they need, which of them mind the
 * processor's rounding mode, and that none minds flush-to-zero. C99 with POSIX threads; prints what doesn't hold. */

#define _XOPEN_SOURCE 600
#include "bulhyemik.h"

#include <fenv.h>
#include <pthread.h>
#include <stdio.h>
#include <stdlib.h>
#include <string.h>
#if defined(__SSE2__)
#include <xmmintrin.h>
#endif

enum { STACK = 1 << 18, STATED = 96 * 1024, PAINT = 0xa5, FLOATS = 64, POINTS = 4, INPUTS = 2000, CALLS = 13 };

static int failures = 0;

static void expect(int holds, const char *what) {
    if (!holds) {
        failures++;
        printf("%s\n", what);
    }
}

/* The greatest header: 8 functions of time and 64 grids, the best at (0, 0) with the spacing 1000, the last one coarse; and nodes with which
 * sums pass one word there. */
static char text[BULHYEMIK_HEADER_BYTES];
static size_t text_len;
static int32_t nodes[16384];

static void make_inputs(void) {
    int k;
    char *end = text + sprintf(text, "group\tlargest\tmetre\t10\t3\t8\t64\n");
    for (k = 0; k < 8; k++) {
        if (k % 3 == 0)
            end += sprintf(end, "ramp\t%d\t%d\t%d\t777\n", k, -100000 * k, 200 + k);
        else if (k % 3 == 1)
            end += sprintf(end, "step\t%d\t%d\t%d\n", 10 * k, 5 * k, 50000 * k);
        else
            end += sprintf(end, "ramp2\t%d\t%d\t%d\t%d\n", -k, 200 + k, 100, 12345 * k);
    }
    for (k = 0; k < 64; k++) {
        int spacing = k < 63 ? 1000 : 36000000;
        end += sprintf(end, "grid\tgrid-%d\t%d\t%d\t%d\t%d\t%d\t7\t%d\t%d\n", k, k, k, spacing, spacing, 5 + k % 7, k + 1,
                       k * 200);
    }
    text_len = (size_t)(end - text);
    for (k = 0; k < 16384; k++)
        nodes[k] = (int32_t)(k * (int64_t)1640531527 % 4294967295 - 2147483647);
}

/* All that the calls answer for one input. */
typedef struct {
    bulhyemik_group group;
    bulhyemik_fix fix;
    bulhyemik_answer results[POINTS];
    bulhyemik_in_force list;
    bulhyemik_uncovered uncovered;
    bulhyemik_part part;
    bulhyemik_screen screen;
    double shifts[3];
    int32_t loaded[FLOATS];
    uint8_t text[BULHYEMIK_HEADER_BYTES], line[BULHYEMIK_LOG_LINE_BYTES];
    bulhyemik_fault fault;
    uint64_t written, number[CALLS], place[CALLS], count;
} answers;

typedef struct {
    int64_t lon, lat, day, quantum;
    bulhyemik_position points[POINTS];
    float floats[FLOATS];
} input;

static const char *const NAMES[CALLS] = {"read_header",    "judge",          "write_header",  "field",         "lookup",
                                         "grids_in_force", "load_nodes",     "screen_answer", "screen_record", "lookup_many",
                                         "hole",           "write_log_line", "judge_log"};

/* One call; the first fills the group of the others. */
static void call(int which, const input *in, answers *out) {
    uint64_t *number = &out->number[which], *place = &out->place[which];
    const bulhyemik_group *group = &out->group;
    switch (which) {
    case 0: *number = bulhyemik_read_header((const uint8_t *)text, text_len, &out->group, place); break;
    case 1: *number = bulhyemik_judge(group, place); break;
    case 2: *number = bulhyemik_write_header(group, out->text, sizeof out->text, &out->count, place); break;
    case 3: bulhyemik_field((const uint8_t *)text, text_len, 5, &out->part); break;
    case 4: *number = bulhyemik_lookup(group, nodes, 16384, in->lon, in->lat, in->day, &out->fix, place); break;
    case 5:
        *number = bulhyemik_grids_in_force(group, in->lon - 5000, in->lon + 5000, in->lat, in->lat + 900, &out->list, place);
        break;
    case 6: *number = bulhyemik_load_nodes(in->floats, FLOATS, 1.5f, in->quantum, out->loaded, FLOATS, place); break;
    case 7:
        *number = bulhyemik_screen_answer(in->quantum, 3, out->number[4], out->place[4], &out->fix, out->shifts, place);
        break;
    case 8:
        *number = bulhyemik_screen_record(in->lon, in->lat, in->quantum, 3, out->number[4], out->place[4], &out->fix,
                                          &out->screen, place);
        break;
    case 9: *number = bulhyemik_lookup_many(group, nodes, 16384, in->points, POINTS, out->results, POINTS, place); break;
    case 10: *number = bulhyemik_hole(group, in->lon, in->lon + 900, in->lat, in->lat + 900, &out->uncovered, place); break;
    case 11:
        *number = bulhyemik_write_log_line(group, nodes, 16384, &in->points[0], out->line, sizeof out->line, &out->written,
                                           place);
        break;
    case 12: *number = bulhyemik_judge_log(group, nodes, 16384, out->line, (size_t)out->written, &out->fault, place); break;
    }
}

/* ---- the stack */

typedef struct {
    int which;
    const input *in;
    answers *out;
} task;

static void *run(void *given) {
    const task *t = (const task *)given;
    if (t->which >= 0)
        call(t->which, t->in, t->out);
    return NULL;
}

/* How deep a thread's stack was used that did one call, or none. */
static size_t depth(int which, const input *in, answers *out) {
    task t;
    void *memory = NULL;
    pthread_attr_t attributes;
    pthread_t thread;
    size_t untouched = 0;
    t.which = which;
    t.in = in;
    t.out = out;
    if (posix_memalign(&memory, 4096, STACK) != 0)
        exit(2);
    memset(memory, PAINT, STACK);
    if (pthread_attr_init(&attributes) != 0 || pthread_attr_setstack(&attributes, memory, STACK) != 0 ||
        pthread_create(&thread, &attributes, run, &t) != 0 || pthread_join(thread, NULL) != 0)
        exit(2);
    while (untouched < STACK && ((const uint8_t *)memory)[untouched] == PAINT)
        untouched++;
    free(memory);
    return STACK - untouched;
}

static void stack(void) {
    static answers out;
    static input in;
    size_t none = depth(-1, &in, &out);
    int which;
    in.quantum = 10;
    for (which = 0; which < CALLS; which++) {
        size_t used = depth(which, &in, &out) - none;
        printf("%s: %lu bytes of stack\n", NAMES[which], (unsigned long)used);
        expect(used <= STATED, "it needs more stack than is stated");
        expect(out.number[which] == BULHYEMIK_ACCEPTED, "the call is accepted");
    }
}

/* ---- rounding modes and flush-to-zero */

static uint64_t state = 88172645463325252u;

static uint64_t random_bits(void) {
    state ^= state << 13;
    state ^= state >> 7;
    state ^= state << 17;
    return state;
}

static input random_input(void) {
    input in;
    int k;
    in.lon = (int64_t)(random_bits() % 12000);
    in.lat = (int64_t)(random_bits() % 7000);
    in.day = (int64_t)(random_bits() % 300);
    in.quantum = (int64_t)(random_bits() % 21);
    for (k = 0; k < POINTS; k++) {
        in.points[k].lon = in.lon + k;
        in.points[k].lat = in.lat;
        in.points[k].day = in.day + k / 2;
    }
    for (k = 0; k < FLOATS; k++) {
        uint32_t bits = (uint32_t)random_bits();
        /* below 2 in size, so that it loads at every Q, or any float at all */
        if (random_bits() % 1000 != 0)
            bits &= 0xbfffffffu;
        memcpy(&in.floats[k], &bits, sizeof bits);
    }
    return in;
}

static void set_flush(int on) {
#if defined(__SSE2__)
    const unsigned int flush_and_zero = 0x8040;
    _mm_setcsr(on ? _mm_getcsr() | flush_and_zero : _mm_getcsr() & ~flush_and_zero);
#else
    (void)on;
#endif
}

static void all_calls(const input *in, answers *out, int mode, int flush) {
    int which;
    memset(out, 0, sizeof *out);
    fesetround(mode);
    set_flush(flush);
    for (which = 0; which < CALLS; which++)
        call(which, in, out);
    set_flush(0);
    fesetround(FE_TONEAREST);
}

static void modes(void) {
    static const int MODES[4] = {FE_TONEAREST, FE_UPWARD, FE_DOWNWARD, FE_TOWARDZERO};
    static answers nearest, other;
    int k, mode, flush, degrees = 0, fixes = 0, loads = 0;
    for (k = 0; k < INPUTS; k++) {
        input in = random_input();
        all_calls(&in, &nearest, FE_TONEAREST, 0);
        fixes += nearest.number[4] == BULHYEMIK_ACCEPTED;
        loads += nearest.number[6] == BULHYEMIK_ACCEPTED;
        for (mode = 0; mode < 4; mode++)
            for (flush = 0; flush < 2; flush++) {
                all_calls(&in, &other, MODES[mode], flush);
                if (mode > 0) {
                    degrees += memcmp(&nearest.screen, &other.screen, 2 * sizeof(double)) != 0;
                    other.screen.longitude = nearest.screen.longitude;
                    other.screen.latitude = nearest.screen.latitude;
                }
                expect(memcmp(&nearest, &other, sizeof nearest) == 0, "a mode changes more than the degrees");
            }
    }
    printf("%d inputs, %d fixes, %d loads; degrees differ %d times in other rounding modes\n", INPUTS, fixes, loads, degrees);
    expect(fixes > INPUTS / 4 && loads > INPUTS / 10 && degrees > INPUTS, "the inputs show too little");
}

int main(void) {
    make_inputs();
    stack();
    modes();
    return failures > 0;
}
