/* An exercise from start to end: a header and its nodes are read, one point is looked up, a list of points replayed and its log judged;
 * then which grids an area uses, and whether they cover another.
 *
 *     cc exercise.c $(pkg-config --cflags --libs bulhyemik) -o exercise
 *     ./exercise ../harbour.txt ../harbour.nodes ../harbour.points
 *
 * It prints what ../callers.expected holds, as the examples in the other languages do.
 */
#include <bulhyemik.h>

#include <errno.h>
#include <inttypes.h>
#include <stdio.h>
#include <stdlib.h>
#include <string.h>

static void stop(const char *file, const char *why) {
    fprintf(stderr, "exercise: %s: %s\n", file, why);
    exit(2);
}

static void refused(const char *file, uint64_t number, uint64_t place) {
    fprintf(stderr, "exercise: %s: refused by %" PRIu64 " at %" PRIu64 "\n", file, number, place);
    exit(1);
}

static void *grown(void *memory, size_t bytes) {
    void *more = realloc(memory, bytes);
    if (more == NULL)
        stop("memory", "there is not enough");
    return more;
}

/* All bytes of a file, and a zero behind them. */
static char *read_file(const char *path, size_t *count) {
    FILE *file = fopen(path, "rb");
    size_t room = 4096, got;
    char *bytes = grown(NULL, room);
    if (file == NULL)
        stop(path, strerror(errno));
    for (*count = 0; (got = fread(bytes + *count, 1, room - *count, file)) > 0; *count += got)
        if (room - *count == got)
            bytes = grown(bytes, room *= 2);
    if (ferror(file))
        stop(path, strerror(errno));
    fclose(file);
    bytes[*count] = 0;
    return bytes;
}

/* The points of a file, one a line: longitude, latitude and day, parted by tabs. A line has six bytes or more. */
static bulhyemik_position *read_points(const char *path, size_t *count) {
    size_t bytes;
    char *first = read_file(path, &bytes), *text = first, *last = first + bytes, *end;
    bulhyemik_position *points = grown(NULL, (bytes / 6 + 1) * sizeof *points);
    for (*count = 0; text < last; ++*count) {
        int64_t *field[3] = {&points[*count].lon, &points[*count].lat, &points[*count].day};
        for (int k = 0; k < 3; k++, text = end + 1) {
            errno = 0;
            *field[k] = strtoll(text, &end, 10);
            if (strspn(text, "-0123456789") == 0 || errno != 0 || *end != (k < 2 ? '\t' : end < last ? '\n' : 0))
                stop(path, "a line is not longitude, latitude and day");
        }
    }
    free(first);
    return points;
}

/* A function of time by its kind; factors are in millionths. */
static void print_function(int number, const bulhyemik_function *function) {
    const bulhyemik_ramp *ramp = &function->numbers.ramp;
    const bulhyemik_step *step = &function->numbers.step;
    const bulhyemik_ramp2 *ramp2 = &function->numbers.ramp2;
    printf("function %d: ", number);
    switch (function->kind) {
    case BULHYEMIK_RAMP:
        printf("ramp, %" PRId64 " until day %" PRId64 ", %" PRId64 " from day %" PRId64 " on\n", ramp->s0, ramp->a, ramp->s1, ramp->b);
        break;
    case BULHYEMIK_STEP:
        printf("step, %" PRId64 " on day %" PRId64 ", counted from day %" PRId64 "\n", step->mult, step->event, step->reference);
        break;
    case BULHYEMIK_RAMP2:
        printf("ramp2, %" PRId64 " from day %" PRId64 " to day %" PRId64 ", counted from day %" PRId64 "\n", ramp2->mult, ramp2->start,
               ramp2->end, ramp2->reference);
        break;
    }
}

int main(int argc, char **argv) {
    bulhyemik_group group;
    bulhyemik_fix fix;
    bulhyemik_screen screen;
    bulhyemik_in_force list;
    bulhyemik_uncovered uncovered;
    bulhyemik_fault fault;
    uint64_t number, place, at, line_bytes;
    size_t text_bytes, node_bytes, count, k, log_bytes = 0;
    if (argc != 4)
        stop("usage", "exercise HEADER NODES POINTS");

    /* The header once; the group is handed to every other call. A node file is a list of 32-bit numbers as this machine has them. */
    char *text = read_file(argv[1], &text_bytes);
    if ((number = bulhyemik_read_header((const uint8_t *)text, text_bytes, &group, &place)) != BULHYEMIK_ACCEPTED)
        refused(argv[1], number, place);
    int32_t *nodes = (int32_t *)(void *)read_file(argv[2], &node_bytes);
    size_t nodes_len = node_bytes / sizeof *nodes;
    if (node_bytes % sizeof *nodes != 0)
        stop(argv[2], "its size is no multiple of 4, so it is no node file or is cut short");
    const char *unit = group.unit == BULHYEMIK_METRE ? "metre" : "arc-second";
    printf("group %.24s: %" PRId64 " grids, steps of 2 to the power -%" PRId64 " %s\n", (const char *)group.name, group.grids,
           group.quantum, unit);
    for (k = 0; k < (size_t)group.functions; k++)
        print_function((int)k + 1, &group.function[k]);

    /* One point, in steps, and what a screen shows of it. */
    const bulhyemik_position one = {-14395000, 180005000, 133};
    number = bulhyemik_lookup(&group, nodes, nodes_len, one.lon, one.lat, one.day, &fix, &at);
    number = bulhyemik_screen_record(one.lon, one.lat, group.quantum, group.parameters, number, at, &fix, &screen, &place);
    if (number != BULHYEMIK_ACCEPTED)
        refused(argv[2], number, place);
    printf("one point: grid %.24s, %" PRId64 " steps, %.10f %s at %.7f, %.7f\n",
           (const char *)group.grid[fix.grid - 1].name, fix.result[0], screen.shift[0], unit, screen.longitude, screen.latitude);

    /* A list of points by one call. A point that is refused has its number there and does not stop the others. */
    bulhyemik_position *points = read_points(argv[3], &count);
    bulhyemik_answer *results = grown(NULL, (count + 1) * sizeof *results);
    number = bulhyemik_lookup_many(&group, nodes, nodes_len, points, count, results, count, &place);
    if (number != BULHYEMIK_ACCEPTED)
        refused(argv[2], number, place);
    for (k = 0; k < count; k++)
        if (results[k].number == BULHYEMIK_ACCEPTED)
            printf("point %d: grid %.24s, %" PRId64 " steps\n", (int)k + 1,
                   (const char *)group.grid[results[k].fix.grid - 1].name, results[k].fix.result[0]);
        else
            printf("point %d: refused by %" PRIu64 "\n", (int)k + 1, results[k].number);

    /* A log has a line for each accepted point (0 bytes for others); anybody's is judged line by line. Here the last is cut off. */
    uint8_t *log = grown(NULL, (count + 1) * BULHYEMIK_LOG_LINE_BYTES);
    for (k = 0; k < count; k++, log_bytes += (size_t)line_bytes)
        bulhyemik_write_log_line(&group, nodes, nodes_len, &points[k], log + log_bytes, BULHYEMIK_LOG_LINE_BYTES, &line_bytes,
                                 &place);
    number = bulhyemik_judge_log(&group, nodes, nodes_len, log, log_bytes, &fault, &place);
    if (number != BULHYEMIK_ACCEPTED)
        refused(argv[2], number, place);
    printf("the log of these points %s\n", fault.line == 0 ? "passes" : "fails");
    if (log_bytes > 0) {
        bulhyemik_judge_log(&group, nodes, nodes_len, log, log_bytes - 1, &fault, &place);
        printf("without its last byte it fails at line %" PRIu64 ", by kind %" PRIu64 "\n", fault.line, fault.kind);
    }

    /* The grids that an area uses, and the first point of a wider one that no grid holds. */
    number = bulhyemik_grids_in_force(&group, -14390000, -14370000, 180010000, 180020000, &list, &place);
    if (number != BULHYEMIK_ACCEPTED)
        refused("area", number, place);
    for (k = 0; k < (size_t)list.count; k++)
        printf("in force: grid %.24s, first at %" PRId64 ", %" PRId64 "\n",
               (const char *)group.grid[list.entry[k].grid - 1].name, list.entry[k].lon, list.entry[k].lat);
    number = bulhyemik_hole(&group, -14400000, -14359999, 180000000, 180030000, &uncovered, &place);
    if (number != BULHYEMIK_ACCEPTED)
        refused("area", number, place);
    if (uncovered.found)
        printf("no grid holds %" PRId64 ", %" PRId64 "\n", uncovered.lon, uncovered.lat);

    /* A refusal says what is wrong, and where: this text is cut off in its second line. */
    number = bulhyemik_read_header((const uint8_t *)text, 40, &group, &place);
    printf("a header that is cut off: refused by %" PRIu64 " at line %" PRIu64 "\n", number, place);
    free(text);
    free(nodes);
    free(points);
    free(results);
    free(log);
    return 0;
}
