/* The examples of include/bulhyemik.h, word for word and as one program; the tests hold what it prints to examples.expected. */

#include "bulhyemik.h"

#include <stdio.h>
#include <string.h>

static bulhyemik_group group;
static uint64_t place;
static const int32_t nodes[6] = {0, 10, 20, 100, 110, 120};

static void version(void) {
    uint64_t version = bulhyemik_version();
    if (version / 1000000 != BULHYEMIK_VERSION / 1000000 || version / 1000 < BULHYEMIK_VERSION / 1000)
        printf("this program needs another library\n");
}

static void read_header(void) {
    static const char text[] =
        "group\tdock\tmetre\t13\t1\t1\t1\n"
        "ramp\t100\t0\t200\t1000000\n"
        "grid\tbasin\t0\t0\t10\t10\t3\t2\t1\t0\n";
    uint64_t number = bulhyemik_read_header((const uint8_t *)text, strlen(text), &group, &place);
    if (number == BULHYEMIK_ACCEPTED)
        printf("group %.24s, grids: %ld\n", (const char *)group.name, (long)group.grids);
    else
        printf("refused by %lu at %lu\n", (unsigned long)number, (unsigned long)place);
}

static void judge(void) {
    group.quantum = 21;
    if (bulhyemik_judge(&group, &place) == BULHYEMIK_BAD_NUMBER)
        printf("line %lu has a number outside its limit\n", (unsigned long)place);
    group.quantum = 13;
}

/* A step in place of the ramp, on the day before and on its event; then the ramp again. */
static void function_of_time(void) {
    const bulhyemik_function ramp = group.function[0];
    bulhyemik_fix before, on;
    group.function[0].kind = BULHYEMIK_STEP;
    group.function[0].numbers.step.event = 150;
    group.function[0].numbers.step.reference = 0;
    group.function[0].numbers.step.mult = 1000000;
    group.function[0].numbers.step.unused = 0;
    bulhyemik_lookup(&group, nodes, 6, 5, 5, 149, &before, &place);
    bulhyemik_lookup(&group, nodes, 6, 5, 5, 150, &on, &place);
    printf("%ld steps before the event, %ld on it\n", (long)before.result[0], (long)on.result[0]);
    group.function[0] = ramp;
}

static void write_header(void) {
    uint8_t out[BULHYEMIK_HEADER_BYTES];
    uint64_t count;
    if (bulhyemik_write_header(&group, out, sizeof out, &count, &place) == BULHYEMIK_ACCEPTED)
        fwrite(out, 1, (size_t)count, stdout);
}

static void field(void) {
    static const char line[] = "ramp\t100\t0\t200\t1000000";
    bulhyemik_part part;
    bulhyemik_field((const uint8_t *)line, strlen(line), 3, &part);
    printf("B is %.*s\n", (int)(part.to - part.from), line + part.from);
}

static void lookup(void) {
    bulhyemik_fix fix;
    uint64_t number = bulhyemik_lookup(&group, nodes, 6, 5, 5, 200, &fix, &place);
    if (number == BULHYEMIK_ACCEPTED)
        printf("grid %.24s: %ld steps\n", (const char *)group.grid[fix.grid - 1].name, (long)fix.result[0]);
}

static void lookup_many(void) {
    static const bulhyemik_position points[3] = {{5, 5, 200}, {5, 5, 150}, {21, 10, 150}};
    bulhyemik_answer results[3];
    int k;
    if (bulhyemik_lookup_many(&group, nodes, 6, points, 3, results, 3, &place) == BULHYEMIK_ACCEPTED)
        for (k = 0; k < 3; k++)
            printf("point %d: number %d, %ld steps\n", k, (int)results[k].number, (long)results[k].fix.result[0]);
}

static void grids_in_force(void) {
    bulhyemik_in_force list;
    int64_t k;
    bulhyemik_grids_in_force(&group, -648000000, 648000000, 3, 324000000, &list, &place);
    for (k = 0; k < list.count; k++)
        printf("grid %ld from %ld, %ld\n", (long)list.entry[k].grid, (long)list.entry[k].lon, (long)list.entry[k].lat);
}

static void hole(void) {
    bulhyemik_uncovered uncovered;
    if (bulhyemik_hole(&group, 0, 30, 3, 10, &uncovered, &place) == BULHYEMIK_ACCEPTED && uncovered.found)
        printf("no grid holds %ld, %ld\n", (long)uncovered.lon, (long)uncovered.lat);
}

static void judge_log(void) {
    static const char log[] = "fix\t5\t5\t200\tbasin\t55\nfix\t5\t5\t150\tbasin\t27\n";
    bulhyemik_fault fault;
    uint64_t number = bulhyemik_judge_log(&group, nodes, 6, (const uint8_t *)log, strlen(log), &fault, &place);
    if (number == BULHYEMIK_ACCEPTED && fault.kind == BULHYEMIK_LOG_SHIFT)
        printf("line %lu has another shift\n", (unsigned long)fault.line);
}

static void write_log_line(void) {
    static const bulhyemik_position position = {5, 5, 150};
    uint8_t out[BULHYEMIK_LOG_LINE_BYTES];
    uint64_t count;
    if (bulhyemik_write_log_line(&group, nodes, 6, &position, out, sizeof out, &count, &place) == BULHYEMIK_ACCEPTED)
        fwrite(out, 1, (size_t)count, stdout);
}

static void load_nodes(void) {
    static const float floats[3] = {0.5f, 1.5f, -9999.0f};
    int32_t loaded[3];
    if (bulhyemik_load_nodes(floats, 3, -9999.0f, 0, loaded, 3, &place) == BULHYEMIK_ACCEPTED)
        printf("%ld, %ld, %s\n", (long)loaded[0], (long)loaded[1], loaded[2] == BULHYEMIK_MARK ? "no data" : "data");
}

static void screen_answer(void) {
    bulhyemik_fix fix;
    double shifts[3];
    uint64_t at, number = bulhyemik_lookup(&group, nodes, 6, 5, 5, 200, &fix, &at);
    number = bulhyemik_screen_answer(group.quantum, group.parameters, number, at, &fix, shifts, &place);
    if (number == BULHYEMIK_ACCEPTED)
        printf("%.6f metres\n", shifts[0]);
}

static void screen_record(void) {
    bulhyemik_fix fix;
    bulhyemik_screen screen;
    uint64_t at, number = bulhyemik_lookup(&group, nodes, 6, 21, 10, 200, &fix, &at);
    number = bulhyemik_screen_record(21, 10, group.quantum, group.parameters, number, at, &fix, &screen, &place);
    if (number == BULHYEMIK_NO_GRID)
        printf("no grid holds the point: %.1f, %.1f\n", screen.longitude, screen.latitude);
}

int main(void) {
    version();
    read_header();
    judge();
    function_of_time();
    write_header();
    field();
    lookup();
    lookup_many();
    grids_in_force();
    hole();
    judge_log();
    write_log_line();
    load_nodes();
    screen_answer();
    screen_record();
    return 0;
}
