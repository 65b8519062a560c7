/* Calls every function of include/bulhyemik.h from C (C89 to C++23): the marked cases of document 01, every refusal, all lent
 * memory before and after, and empty memory; prints what differs. */

#include "bulhyemik.h"

#include <stdio.h>
#include <string.h>

static const char HEADER[] =
    "group\tdock\tmetre\t13\t1\t1\t1\n"
    "ramp\t100\t0\t200\t1000000\n"
    "grid\tbasin\t0\t0\t10\t10\t3\t2\t1\t0\n";

static const int32_t NODES[6] = {0, 10, 20, 100, 110, 120};

static int checks = 0;
static int failures = 0;

/* Counts a check, and prints it if it fails. */
#define EXPECT(test) expect((test) ? 1 : 0, #test, __LINE__)

static void expect(int holds, const char *test, int line) {
    checks++;
    if (!holds) {
        failures++;
        printf("line %d: %s\n", line, test);
    }
}

static const uint8_t *bytes(const char *text) {
    return (const uint8_t *)text;
}

/* Whether all bytes of some memory are this one. */
static int all(const void *memory, size_t length, int byte) {
    size_t k;
    for (k = 0; k < length; k++)
        if (((const uint8_t *)memory)[k] != byte)
            return 0;
    return 1;
}

/* Whether two floats have the same bits. */
static int same(double one, double other) {
    return memcmp(&one, &other, sizeof one) == 0;
}

/* The group of an accepted text. */
static bulhyemik_group group_of(const char *text) {
    bulhyemik_group group;
    uint64_t place;
    memset(&group, 0xa5, sizeof group);
    EXPECT(bulhyemik_read_header(bytes(text), strlen(text), &group, &place) == BULHYEMIK_ACCEPTED && place == 0);
    return group;
}

static bulhyemik_group dock(void) {
    return group_of(HEADER);
}

static void put_grid(bulhyemik_grid *grid, const char *name, int64_t lon, int64_t ni, int64_t rank) {
    memset(grid, 0, sizeof *grid);
    memcpy(grid->name, name, strlen(name));
    grid->name_length = (int64_t)strlen(name);
    grid->lon = lon;
    grid->dlon = 10;
    grid->dlat = 10;
    grid->ni = ni;
    grid->nj = 2;
    grid->rank = rank;
}

/* The group of M11. */
static bulhyemik_group three_grids(void) {
    bulhyemik_group group = dock();
    group.grids = 3;
    put_grid(&group.grid[0], "G1", 0, 3, 3);
    put_grid(&group.grid[1], "G2", 0, 2, 1);
    put_grid(&group.grid[2], "G3", 10, 2, 2);
    return group;
}

static void version(void) {
    EXPECT(bulhyemik_version() == BULHYEMIK_VERSION);
}

static void read_header(void) {
    bulhyemik_group group = dock();
    EXPECT(memcmp(group.name, "dock\0\0\0\0\0\0\0\0\0\0\0\0\0\0\0\0\0\0\0", 24) == 0 && group.name_length == 4);
    EXPECT(group.unit == BULHYEMIK_METRE && group.quantum == 13 && group.parameters == 1);
    EXPECT(group.functions == 1 && group.function[0].kind == BULHYEMIK_RAMP);
    EXPECT(group.function[0].numbers.ramp.a == 100 && group.function[0].numbers.ramp.s0 == 0);
    EXPECT(group.function[0].numbers.ramp.b == 200 && group.function[0].numbers.ramp.s1 == 1000000);
    EXPECT(all(&group.function[1], sizeof group.function - sizeof group.function[0], 0));
    EXPECT(group.grids == 1 && group.grid[0].name_length == 5);
    EXPECT(memcmp(group.grid[0].name, "basin\0\0\0\0\0\0\0\0\0\0\0\0\0\0\0\0\0\0", 24) == 0);
    EXPECT(group.grid[0].lon == 0 && group.grid[0].lat == 0 && group.grid[0].dlon == 10 && group.grid[0].dlat == 10);
    EXPECT(group.grid[0].ni == 3 && group.grid[0].nj == 2 && group.grid[0].rank == 1 && group.grid[0].start == 0);
    EXPECT(all(&group.grid[1], sizeof group.grid - sizeof group.grid[0], 0));
}

/* Reads a text that is refused, which leaves the group as it was. */
static void refused(const char *text, size_t length, uint64_t number, uint64_t at) {
    bulhyemik_group group;
    uint64_t place = 77;
    memset(&group, 0xa5, sizeof group);
    EXPECT(bulhyemik_read_header(bytes(text), length, &group, &place) == number);
    EXPECT(place == at);
    EXPECT(all(&group, sizeof group, 0xa5));
}

static void read_refused_headers(void) {
    static const char limit[] = "group\tdock\tmetre\t21\t1\t0\t1\n";
    static const char name[] = "group\tg\tmetre\t0\t1\t0\t2\ngrid\ta\t0\t0\t1\t1\t2\t2\t1\t0\ngrid\ta\t9\t0\t1\t1\t2\t2\t1\t0\n";
    static const char far_edge[] = "group\tg\tmetre\t0\t1\t0\t1\ngrid\ta\t0\t324000000\t1\t1\t2\t2\t1\t0\n";
    static const char rank[] = "group\tg\tmetre\t0\t1\t0\t2\ngrid\ta\t0\t0\t1\t1\t2\t2\t1\t0\ngrid\tb\t1\t1\t1\t1\t2\t2\t1\t0\n";
    refused("", 0, BULHYEMIK_BAD_FORM, 1);
    refused(NULL, 0, BULHYEMIK_BAD_FORM, 1);
    refused(HEADER, 30, BULHYEMIK_BAD_FORM, 2);
    refused(HEADER, strlen(HEADER) - 1, BULHYEMIK_BAD_FORM, 3);
    refused(HEADER, sizeof HEADER, BULHYEMIK_BAD_FORM, 4);
    refused(limit, strlen(limit), BULHYEMIK_BAD_NUMBER, 1);
    refused(name, strlen(name), BULHYEMIK_SAME_NAME, 2);
    refused(far_edge, strlen(far_edge), BULHYEMIK_BAD_EXTENT, 1);
    refused(rank, strlen(rank), BULHYEMIK_SAME_RANK, 2);
}

static void judge(void) {
    bulhyemik_group group = dock();
    uint64_t place = 77;
    int k;
    EXPECT(bulhyemik_judge(&group, &place) == BULHYEMIK_ACCEPTED && place == 0);
    for (k = 0; k < 24; k++) {
        group = dock();
        group.grid[0].name[k] = 0xc3;
        EXPECT(bulhyemik_judge(&group, &place) == BULHYEMIK_BAD_NUMBER && place == 3);
    }
    group = dock();
    memcpy(group.grid[0].name, "ABCDEFGHIJKLMNOPQRSTUVWX", 24);
    group.grid[0].name_length = 24;
    EXPECT(bulhyemik_judge(&group, &place) == BULHYEMIK_ACCEPTED && place == 0);
    group.grid[63].name[23] = 'x';
    EXPECT(bulhyemik_judge(&group, &place) == BULHYEMIK_BAD_NUMBER && place == 1);
    group = dock();
    group.grid[63].start = 1;
    EXPECT(bulhyemik_judge(&group, &place) == BULHYEMIK_BAD_NUMBER && place == 1);
    group = dock();
    group.quantum = -1;
    EXPECT(bulhyemik_judge(&group, &place) == BULHYEMIK_BAD_NUMBER && place == 1);
    group = dock();
    group.unit = 2;
    EXPECT(bulhyemik_judge(&group, &place) == BULHYEMIK_BAD_NUMBER && place == 1);
    group = dock();
    group.function[0].numbers.ramp.a = 201;
    EXPECT(bulhyemik_judge(&group, &place) == BULHYEMIK_BAD_NUMBER && place == 2);
    group = three_grids();
    memcpy(group.grid[2].name, "G1", 2);
    EXPECT(bulhyemik_judge(&group, &place) == BULHYEMIK_SAME_NAME && place == 3);
    group = three_grids();
    group.grid[1].start = 16777213;
    EXPECT(bulhyemik_judge(&group, &place) == BULHYEMIK_BAD_EXTENT && place == 2);
    group = three_grids();
    group.grid[2].rank = 1;
    EXPECT(bulhyemik_judge(&group, &place) == BULHYEMIK_SAME_RANK && place == 3);
}

/* A function of each kind. */
static const char MIXED[] =
    "group\tdock\tmetre\t13\t1\t3\t1\n"
    "step\t300\t0\t-400000\n"
    "ramp2\t100\t200\t150\t1000000\n"
    "ramp\t100\t0\t200\t1000000\n"
    "grid\tbasin\t0\t0\t10\t10\t3\t2\t1\t0\n";

/* The first result of nodes that are all a million on a day: the day's factor. */
static int64_t factor(const bulhyemik_group *group, int64_t day) {
    static const int32_t million[6] = {1000000, 1000000, 1000000, 1000000, 1000000, 1000000};
    bulhyemik_fix fix;
    uint64_t place = 77;
    EXPECT(bulhyemik_lookup(group, million, 6, 5, 5, day, &fix, &place) == BULHYEMIK_ACCEPTED && place == 0);
    return fix.result[0];
}

/* All kinds are read in their order, looked up and written back. */
static void functions(void) {
    static uint8_t out[BULHYEMIK_HEADER_BYTES];
    bulhyemik_group group = group_of(MIXED), made = dock();
    const bulhyemik_function *f = group.function;
    uint64_t count = 77, place = 77;
    EXPECT(group.functions == 3);
    EXPECT(f[0].kind == BULHYEMIK_STEP && f[0].numbers.step.event == 300 && f[0].numbers.step.reference == 0);
    EXPECT(f[0].numbers.step.mult == -400000 && f[0].numbers.step.unused == 0);
    EXPECT(f[1].kind == BULHYEMIK_RAMP2 && f[1].numbers.ramp2.start == 100 && f[1].numbers.ramp2.end == 200);
    EXPECT(f[1].numbers.ramp2.reference == 150 && f[1].numbers.ramp2.mult == 1000000);
    EXPECT(f[2].kind == BULHYEMIK_RAMP && f[2].numbers.ramp.a == 100 && f[2].numbers.ramp.s1 == 1000000);
    EXPECT(all(&f[3], sizeof group.function - 3 * sizeof f[0], 0));
    EXPECT(factor(&group, 99) == -500000 && factor(&group, 133) == 160000 && factor(&group, 200) == 1500000);
    EXPECT(factor(&group, 299) == 1500000 && factor(&group, 300) == 1100000);
    memset(out, 0xa5, sizeof out);
    EXPECT(bulhyemik_write_header(&group, out, sizeof out, &count, &place) == BULHYEMIK_ACCEPTED && place == 0);
    EXPECT(count == strlen(MIXED) && memcmp(out, MIXED, strlen(MIXED)) == 0);
    EXPECT(all(out + count, sizeof out - (size_t)count, 0xa5));
    /* one rounding: a third, of which two would make 1 - 0 */
    memset(&made.function[0], 0, sizeof made.function[0]);
    made.function[0].kind = BULHYEMIK_RAMP2;
    made.function[0].numbers.ramp2.end = 3;
    made.function[0].numbers.ramp2.reference = 1;
    made.function[0].numbers.ramp2.mult = 1;
    EXPECT(factor(&made, 2) == 0 && factor(&made, 3) == 1 && factor(&made, 0) == 0);
    made.function[0].kind = BULHYEMIK_STEP;
    made.function[0].numbers.step.event = -1;
    made.function[0].numbers.step.reference = -1;
    made.function[0].numbers.step.mult = 7;
    made.function[0].numbers.step.unused = 0;
    EXPECT(factor(&made, -2) == -7 && factor(&made, -1) == 0 && factor(&made, 0) == 0);
}

/* Judges, writes and looks up a group that is refused by 2 at a line, which changes neither it nor what is lent. */
static void refused_group(const bulhyemik_group *group, uint64_t at) {
    const bulhyemik_group before = *group;
    bulhyemik_fix fix;
    uint8_t out[64];
    uint64_t count = 77, place = 77;
    EXPECT(bulhyemik_judge(group, &place) == BULHYEMIK_BAD_NUMBER && place == at);
    memset(out, 0xa5, sizeof out);
    place = 77;
    EXPECT(bulhyemik_write_header(group, out, sizeof out, &count, &place) == BULHYEMIK_BAD_NUMBER && place == at);
    EXPECT(count == 0 && all(out, sizeof out, 0xa5));
    place = 77;
    memset(&fix, 0xa5, sizeof fix);
    EXPECT(bulhyemik_lookup(group, NODES, 6, 5, 5, 0, &fix, &place) == BULHYEMIK_BAD_NUMBER && place == at);
    EXPECT(all(&fix, sizeof fix, 0) && memcmp(group, &before, sizeof before) == 0);
}

static void refused_functions(void) {
    static const int64_t kinds[5] = {3, -1, (int64_t)1 << 32, INT64_MIN, INT64_MAX};
    static const char three[] = "group\tg\tmetre\t0\t1\t1\t1\nramp2\t1\t2\t3\n";
    static const char four[] = "group\tg\tmetre\t0\t1\t1\t1\nstep\t1\t2\t3\t0\n";
    static const char equal[] = "group\tg\tmetre\t0\t1\t1\t1\nramp2\t2\t2\t3\t4\n";
    static const char nine[] = "group\tg\tmetre\t0\t1\t9\t1\n";
    bulhyemik_group group;
    int k;
    refused(three, strlen(three), BULHYEMIK_BAD_FORM, 2);
    refused(four, strlen(four), BULHYEMIK_BAD_FORM, 2);
    refused(equal, strlen(equal), BULHYEMIK_BAD_NUMBER, 2);
    refused(nine, strlen(nine), BULHYEMIK_BAD_NUMBER, 1);
    for (k = 0; k < 5; k++) {
        group = group_of(MIXED);
        group.function[1].kind = kinds[k];
        refused_group(&group, 3);
        group = group_of(MIXED);
        group.function[3].kind = kinds[k];
        refused_group(&group, 1);
    }
    group = group_of(MIXED);
    group.function[0].numbers.step.unused = 1;
    refused_group(&group, 2);
    group.function[0].numbers.step.unused = INT64_MIN;
    refused_group(&group, 2);
    group = group_of(MIXED);
    group.function[7].kind = BULHYEMIK_STEP;
    refused_group(&group, 1);
    group.function[7].kind = BULHYEMIK_RAMP2;
    refused_group(&group, 1);
    group.function[7].kind = BULHYEMIK_RAMP;
    group.function[7].numbers.step.unused = 1;
    refused_group(&group, 1);
    group = group_of(MIXED);
    group.function[1].numbers.ramp2.start = 200;
    refused_group(&group, 3);
    group.function[1].numbers.ramp2.start = 201;
    refused_group(&group, 3);
    group = group_of(MIXED);
    group.function[0].numbers.step.event = 1000001;
    refused_group(&group, 2);
    group = group_of(MIXED);
    group.function[0].numbers.step.mult = -10000001;
    refused_group(&group, 2);
    group = group_of(MIXED);
    group.function[1].numbers.ramp2.reference = -1000001;
    refused_group(&group, 3);
    group = group_of(MIXED);
    group.functions = 9;
    refused_group(&group, 1);
    group.functions = 2;
    refused_group(&group, 1);
}

static void write_header(void) {
    static uint8_t out[BULHYEMIK_HEADER_BYTES];
    bulhyemik_group group = dock();
    uint64_t count = 77, place = 77;
    const size_t length = strlen(HEADER);
    memset(out, 0xa5, sizeof out);
    EXPECT(bulhyemik_write_header(&group, out, length - 1, &count, &place) == BULHYEMIK_BAD_LENGTH);
    EXPECT(count == 0 && place == 0 && all(out, sizeof out, 0xa5));
    EXPECT(bulhyemik_write_header(&group, NULL, 0, &count, &place) == BULHYEMIK_BAD_LENGTH && count == 0);
    group.grids = 0;
    count = place = 77;
    EXPECT(bulhyemik_write_header(&group, out, sizeof out, &count, &place) == BULHYEMIK_BAD_NUMBER);
    EXPECT(count == 0 && place == 1 && all(out, sizeof out, 0xa5));
    group.grids = 1;
    EXPECT(bulhyemik_write_header(&group, out, sizeof out, &count, &place) == BULHYEMIK_ACCEPTED);
    EXPECT(count == length && place == 0 && memcmp(out, HEADER, length) == 0);
    EXPECT(all(out + length, sizeof out - length, 0xa5));
}

static void field(void) {
    bulhyemik_part part;
    bulhyemik_field(bytes("ramp\t100\t0"), 10, 1, &part);
    EXPECT(part.from == 5 && part.to == 8);
    bulhyemik_field(bytes("ramp\t100\t0"), 10, 2, &part);
    EXPECT(part.from == 9 && part.to == 10);
    bulhyemik_field(bytes("ramp\t100\t0"), 10, 3, &part);
    EXPECT(part.from == 10 && part.to == 10);
    bulhyemik_field(bytes("ramp\t100\t0"), 10, UINT64_MAX, &part);
    EXPECT(part.from == 10 && part.to == 10);
    bulhyemik_field(NULL, 0, 0, &part);
    EXPECT(part.from == 0 && part.to == 0);
}

/* A lookup that is refused: the fix is all zeros. */
static void lookup_refused(const bulhyemik_group *group, const int32_t *nodes, size_t length, const int64_t at[3],
                           uint64_t number, uint64_t where) {
    bulhyemik_fix fix;
    uint64_t place = 77;
    memset(&fix, 0xa5, sizeof fix);
    EXPECT(bulhyemik_lookup(group, nodes, length, at[0], at[1], at[2], &fix, &place) == number);
    EXPECT(place == where && all(&fix, sizeof fix, 0));
}

static void lookup(void) {
    static const int64_t inside[3] = {1, 5, 200}, beside[3] = {21, 10, 200}, north[3] = {0, 324000001, 0}, late[3] = {0, 0, 1000001};
    bulhyemik_group group = dock();
    int32_t nodes[6];
    bulhyemik_fix fix;
    uint64_t place = 77;
    memset(&fix, 0xa5, sizeof fix);
    EXPECT(bulhyemik_lookup(&group, NODES, 6, 5, 5, 200, &fix, &place) == BULHYEMIK_ACCEPTED && place == 0);
    EXPECT(fix.grid == 1 && fix.result[0] == 55 && fix.result[1] == 0 && fix.result[2] == 0);
    EXPECT(bulhyemik_lookup(&group, NODES, 6, 20, 10, 200, &fix, &place) == BULHYEMIK_ACCEPTED && fix.result[0] == 120);
    EXPECT(bulhyemik_lookup(&group, NODES, 6, 0, 10, 133, &fix, &place) == BULHYEMIK_ACCEPTED && fix.result[0] == 33);
    lookup_refused(&group, NODES, 6, beside, BULHYEMIK_NO_GRID, 0);
    lookup_refused(&group, NODES, 6, north, BULHYEMIK_BAD_POINT, 0);
    lookup_refused(&group, NODES, 6, late, BULHYEMIK_BAD_DAY, 0);
    lookup_refused(&group, NODES, 5, inside, BULHYEMIK_FEW_NODES, 1);
    lookup_refused(&group, NULL, 0, inside, BULHYEMIK_FEW_NODES, 1);
    memcpy(nodes, NODES, sizeof nodes);
    nodes[1] = BULHYEMIK_MARK;
    lookup_refused(&group, nodes, 6, inside, BULHYEMIK_NO_DATA, 0);
    EXPECT(bulhyemik_lookup(&group, nodes, 6, 0, 5, 200, &fix, &place) == BULHYEMIK_ACCEPTED && fix.result[0] == 50);
    nodes[1] = 4000001;
    EXPECT(bulhyemik_lookup(&group, nodes, 6, 1, 5, 200, &fix, &place) == BULHYEMIK_ACCEPTED && fix.result[0] == 200051);
    group.grid[0].rank = 0;
    lookup_refused(&group, NODES, 6, inside, BULHYEMIK_BAD_NUMBER, 3);
}

static bulhyemik_position position(int64_t lon, int64_t lat, int64_t day) {
    bulhyemik_position at;
    at.lon = lon;
    at.lat = lat;
    at.day = day;
    return at;
}

/* Looks five points up at once and each by itself; then others, in part, into results that hold the answers to these. */
static void many_points(const bulhyemik_group *group, const int32_t *nodes, size_t length) {
    bulhyemik_position points[5];
    bulhyemik_answer results[6];
    uint64_t place = 77, at;
    bulhyemik_fix fix;
    int k, turn;
    points[0] = position(5, 5, 200);
    points[1] = position(0, 10, 133);
    points[2] = position(21, 10, 133);
    points[3] = position(0, 324000001, 1000001);
    points[4] = position(20, 10, -1000001);
    memset(results, 0xa5, sizeof results);
    for (turn = 0; turn < 2; turn++) {
        EXPECT(bulhyemik_lookup_many(group, nodes, length, points, 5, results, 5, &place) == BULHYEMIK_ACCEPTED && place == 0);
        for (k = 0; k < 5; k++) {
            const bulhyemik_position *p = &points[k];
            EXPECT(bulhyemik_lookup(group, nodes, length, p->lon, p->lat, p->day, &fix, &at) == results[k].number);
            EXPECT(results[k].place == at && memcmp(&results[k].fix, &fix, sizeof fix) == 0);
        }
        EXPECT(all(&results[5], sizeof results[5], 0xa5));
        points[2] = points[0];
        points[0] = points[4];
        place = 77;
    }
}

/* A call for many points that is refused: the results are as they were. */
static void many_refused(const bulhyemik_group *group, const int32_t *nodes, size_t length, size_t points_len,
                         size_t results_len, uint64_t number, uint64_t where) {
    bulhyemik_position points[2];
    bulhyemik_answer results[3];
    uint64_t place = 77;
    points[0] = position(5, 5, 200);
    points[1] = position(0, 324000001, 0);
    memset(results, 0xa5, sizeof results);
    EXPECT(bulhyemik_lookup_many(group, nodes, length, points, points_len, results, results_len, &place) == number);
    EXPECT(place == where && all(results, sizeof results, 0xa5));
}

static void lookup_many(void) {
    bulhyemik_group group = dock();
    bulhyemik_position at = position(5, 5, 150);
    bulhyemik_answer answer;
    double shifts[3];
    int32_t nodes[6];
    uint64_t place = 77;
    EXPECT(sizeof(bulhyemik_position) == 24 && offsetof(bulhyemik_position, lon) == 0);
    EXPECT(offsetof(bulhyemik_position, lat) == 8 && offsetof(bulhyemik_position, day) == 16);
    EXPECT(sizeof(bulhyemik_answer) == 48 && offsetof(bulhyemik_answer, number) == 0 && offsetof(bulhyemik_answer, place) == 8);
    EXPECT(offsetof(bulhyemik_answer, fix) == 16 && offsetof(bulhyemik_fix, grid) == 0 && offsetof(bulhyemik_fix, result) == 8);
    many_points(&group, NODES, 6);
    memcpy(nodes, NODES, sizeof nodes);
    nodes[1] = BULHYEMIK_MARK;
    nodes[3] = 4000001;
    many_points(&group, nodes, 6);
    EXPECT(bulhyemik_lookup_many(&group, NODES, 6, &at, 1, &answer, 1, &place) == BULHYEMIK_ACCEPTED && place == 0);
    EXPECT(answer.number == 0 && answer.place == 0 && answer.fix.grid == 1 && answer.fix.result[0] == 28);
    EXPECT(bulhyemik_screen_answer(13, 1, answer.number, answer.place, &answer.fix, shifts, &place) == BULHYEMIK_ACCEPTED);
    EXPECT(same(shifts[0], 28.0 / 8192.0));
    place = 77;
    EXPECT(bulhyemik_lookup_many(&group, NODES, 6, NULL, 0, NULL, 0, &place) == BULHYEMIK_ACCEPTED && place == 0);
    place = 77;
    EXPECT(bulhyemik_lookup_many(&group, NULL, 0, NULL, 0, NULL, 0, &place) == BULHYEMIK_FEW_NODES && place == 1);
    many_refused(&group, NODES, 5, 2, 2, BULHYEMIK_FEW_NODES, 1);
    many_refused(&group, NODES, 5, 2, 1, BULHYEMIK_BAD_LENGTH, 0);
    many_refused(&group, NODES, 6, 2, 3, BULHYEMIK_BAD_LENGTH, 0);
    many_refused(&group, NODES, 6, 2, 0, BULHYEMIK_BAD_LENGTH, 0);
    many_refused(&group, NODES, 6, 0, 1, BULHYEMIK_BAD_LENGTH, 0);
    group.grid[0].rank = 0;
    many_refused(&group, NODES, 5, 2, 1, BULHYEMIK_BAD_NUMBER, 3);
    EXPECT(bulhyemik_lookup_many(&group, NULL, 0, NULL, 0, NULL, 0, &place) == BULHYEMIK_BAD_NUMBER && place == 3);
    group = three_grids();
    group.grid[2].rank = 1;
    many_refused(&group, NODES, 6, 2, 2, BULHYEMIK_SAME_RANK, 3);
    group.grid[2].lat = 324000000;
    many_refused(&group, NODES, 6, 2, 2, BULHYEMIK_BAD_EXTENT, 3);
    memcpy(group.grid[2].name, "G1", 2);
    many_refused(&group, NODES, 6, 2, 2, BULHYEMIK_SAME_NAME, 3);
}

static void grids_in_force(void) {
    bulhyemik_group group = three_grids();
    bulhyemik_in_force list;
    uint64_t place = 77;
    memset(&list, 0xa5, sizeof list);
    EXPECT(bulhyemik_grids_in_force(&group, 0, 20, 0, 10, &list, &place) == BULHYEMIK_ACCEPTED);
    EXPECT(place == 0 && list.count == 2);
    EXPECT(list.entry[0].grid == 2 && list.entry[0].lon == 0 && list.entry[0].lat == 0);
    EXPECT(list.entry[1].grid == 3 && list.entry[1].lon == 11 && list.entry[1].lat == 0);
    EXPECT(all(&list.entry[2], sizeof list.entry - 2 * sizeof list.entry[0], 0));
    group.grid[2].lon = 12;
    EXPECT(bulhyemik_grids_in_force(&group, -648000000, 648000000, -324000000, 324000000, &list, &place) == 0);
    EXPECT(list.count == 3 && list.entry[2].grid == 1 && list.entry[2].lon == 11 && list.entry[2].lat == 0);
    EXPECT(bulhyemik_grids_in_force(&group, 30, 40, 0, 10, &list, &place) == 0 && all(&list, sizeof list, 0));
    memset(&list, 0xa5, sizeof list);
    EXPECT(bulhyemik_grids_in_force(&group, 1, 0, 0, 10, &list, &place) == BULHYEMIK_BAD_AREA);
    EXPECT(place == 0 && all(&list, sizeof list, 0));
}

/* A hole that is looked for and refused: the answer is all zeros. */
static void hole_refused(const bulhyemik_group *group, const int64_t area[4], uint64_t number, uint64_t where) {
    bulhyemik_uncovered uncovered;
    uint64_t place = 77;
    memset(&uncovered, 0xa5, sizeof uncovered);
    EXPECT(bulhyemik_hole(group, area[0], area[1], area[2], area[3], &uncovered, &place) == number);
    EXPECT(place == where && all(&uncovered, sizeof uncovered, 0));
}

static void hole(void) {
    static const int64_t inside[4] = {0, 20, 0, 10}, turned[4] = {1, 0, 0, 10}, tilted[4] = {0, 20, 10, 9};
    static const int64_t north[4] = {0, 20, 0, 324000001}, west[4] = {INT64_MIN, INT64_MAX, 0, 10};
    bulhyemik_group group = three_grids();
    bulhyemik_uncovered uncovered;
    uint64_t place = 77;
    memset(&uncovered, 0xa5, sizeof uncovered);
    EXPECT(bulhyemik_hole(&group, 0, 21, 0, 11, &uncovered, &place) == BULHYEMIK_ACCEPTED && place == 0);
    EXPECT(uncovered.found == 1 && uncovered.lon == 21 && uncovered.lat == 0);
    EXPECT(bulhyemik_hole(&group, 0, 20, 0, 11, &uncovered, &place) == BULHYEMIK_ACCEPTED);
    EXPECT(uncovered.found == 1 && uncovered.lon == 0 && uncovered.lat == 11);
    EXPECT(bulhyemik_hole(&group, 20, 21, 11, 11, &uncovered, &place) == BULHYEMIK_ACCEPTED);
    EXPECT(uncovered.found == 1 && uncovered.lon == 20 && uncovered.lat == 11);
    EXPECT(bulhyemik_hole(&group, -648000000, 648000000, -324000000, 324000000, &uncovered, &place) == 0);
    EXPECT(uncovered.found == 1 && uncovered.lon == -648000000 && uncovered.lat == -324000000);
    memset(&uncovered, 0xa5, sizeof uncovered);
    place = 77;
    EXPECT(bulhyemik_hole(&group, 0, 20, 0, 10, &uncovered, &place) == BULHYEMIK_ACCEPTED && place == 0);
    EXPECT(all(&uncovered, sizeof uncovered, 0));
    group.grids = 2;
    group.grid[0] = group.grid[2];
    memset(&group.grid[2], 0, sizeof group.grid[2]);
    group.grid[0].lon = 12;
    EXPECT(bulhyemik_hole(&group, 0, 22, 0, 10, &uncovered, &place) == BULHYEMIK_ACCEPTED);
    EXPECT(uncovered.found == 1 && uncovered.lon == 11 && uncovered.lat == 0);
    hole_refused(&group, turned, BULHYEMIK_BAD_AREA, 0);
    hole_refused(&group, tilted, BULHYEMIK_BAD_AREA, 0);
    hole_refused(&group, north, BULHYEMIK_BAD_AREA, 0);
    hole_refused(&group, west, BULHYEMIK_BAD_AREA, 0);
    group = three_grids();
    group.grid[2].rank = 1;
    hole_refused(&group, turned, BULHYEMIK_SAME_RANK, 3);
    group.grid[2].lat = 324000000;
    hole_refused(&group, turned, BULHYEMIK_BAD_EXTENT, 3);
    memcpy(group.grid[2].name, "G1", 2);
    hole_refused(&group, inside, BULHYEMIK_SAME_NAME, 3);
    group.grid[0].rank = 0;
    hole_refused(&group, inside, BULHYEMIK_BAD_NUMBER, 3);
}

/* A log that is judged: its first bad line, and the kind. */
static void judged(const bulhyemik_group *group, const char *log, uint64_t line, uint64_t kind) {
    bulhyemik_fault fault;
    uint64_t place = 77;
    memset(&fault, 0xa5, sizeof fault);
    EXPECT(bulhyemik_judge_log(group, NODES, 6, bytes(log), strlen(log), &fault, &place) == BULHYEMIK_ACCEPTED);
    EXPECT(place == 0 && fault.line == line && fault.kind == kind);
}

/* A log cut behind none and behind each of its line feeds: where the front passes, the whole is judged as the rest is, so many
 * lines later; where it does not, as the front. */
static void judged_in_parts(const bulhyemik_group *group, const char *log) {
    bulhyemik_fault whole, front, rest;
    uint64_t place, lines = 0;
    size_t length = strlen(log), cut;
    EXPECT(bulhyemik_judge_log(group, NODES, 6, bytes(log), length, &whole, &place) == BULHYEMIK_ACCEPTED);
    for (cut = 0; cut <= length; cut++) {
        if (cut > 0 && log[cut - 1] != '\n') continue;
        lines += cut > 0;
        EXPECT(bulhyemik_judge_log(group, NODES, 6, bytes(log), cut, &front, &place) == BULHYEMIK_ACCEPTED);
        EXPECT(bulhyemik_judge_log(group, NODES, 6, bytes(log + cut), length - cut, &rest, &place) == BULHYEMIK_ACCEPTED);
        if (front.line != 0) {
            EXPECT(whole.line == front.line && whole.kind == front.kind);
        } else {
            EXPECT(whole.line == (rest.line == 0 ? 0 : lines + rest.line) && whole.kind == rest.kind);
        }
    }
}

/* A log that is not judged, since group or nodes are refused: the fault is all zeros. */
static void log_refused(const bulhyemik_group *group, size_t length, uint64_t number, uint64_t where) {
    bulhyemik_fault fault;
    uint64_t place = 77;
    memset(&fault, 0xa5, sizeof fault);
    EXPECT(bulhyemik_judge_log(group, NODES, length, bytes("\n"), 1, &fault, &place) == number);
    EXPECT(place == where && all(&fault, sizeof fault, 0));
    place = 77;
    memset(&fault, 0xa5, sizeof fault);
    EXPECT(bulhyemik_judge_log(group, NODES, length, NULL, 0, &fault, &place) == number);
    EXPECT(place == where && all(&fault, sizeof fault, 0));
}

static void judge_log(void) {
    static const char zero[] = "fix\t5\t5\t200\tbasin\t55\n\0";
    bulhyemik_group group = dock();
    bulhyemik_fault fault;
    uint64_t place = 77;
    judged(&group, "", 0, BULHYEMIK_LOG_PASSES);
    judged(&group, "fix\t5\t5\t200\tbasin\t55\n", 0, BULHYEMIK_LOG_PASSES);
    judged(&group, "fix\t5\t5\t200\tbasin\t55\nfix\t5\t5\t150\tbasin\t28\n", 0, BULHYEMIK_LOG_PASSES);
    judged(&group, "fix\t5\t5\t200\tbasin\t55", 1, BULHYEMIK_LOG_FORM);
    judged(&group, "fix\t5\t5\t200\tbasin\t55\r\n", 1, BULHYEMIK_LOG_FORM);
    judged(&group, "fix\t5\t5\t200\tbasin\t55\n\n", 2, BULHYEMIK_LOG_FORM);
    judged(&group, "fix\t5\t5\t200\tbasin\t55\nfix", 2, BULHYEMIK_LOG_FORM);
    judged(&group, "fix\t5\t5\t200\tbasin\t55\t0\n", 1, BULHYEMIK_LOG_FORM);
    judged(&group, "fix\t5\t5\t200\tbasin\n", 1, BULHYEMIK_LOG_FORM);
    judged(&group, "fix\t5\t5\t200\tbasin\t055\n", 1, BULHYEMIK_LOG_FORM);
    judged(&group, "fix\t5\t5\t200\tbasin\t+55\n", 1, BULHYEMIK_LOG_FORM);
    judged(&group, "fix\t-0\t5\t200\tbasin\t50\n", 1, BULHYEMIK_LOG_FORM);
    judged(&group, "fix\t5\t5\t200\tba.in\t55\n", 1, BULHYEMIK_LOG_FORM);
    judged(&group, "fix\t21\t5\t200\tABCDEFGHIJKLMNOPQRSTUVWXY\t55\n", 1, BULHYEMIK_LOG_FORM);
    judged(&group, "fix\t21\t5\t200\tABCDEFGHIJKLMNOPQRSTUVWX\t55\n", 1, BULHYEMIK_LOG_REFUSED);
    judged(&group, "fix\t5\t324000001\t200\tbasin\t55\n", 1, BULHYEMIK_LOG_REFUSED);
    judged(&group, "fix\t5\t5\t-1000001\tbasin\t55\n", 1, BULHYEMIK_LOG_REFUSED);
    judged(&group, "fix\t18446744073709551621\t5\t200\tbasin\t55\n", 1, BULHYEMIK_LOG_REFUSED);
    judged(&group, "fix\t5\t5\t200\tbasin\t55\nfix\t5\t5\t200\tBASIN\t54\n", 2, BULHYEMIK_LOG_GRID);
    judged(&group, "fix\t5\t5\t200\t1\t55\n", 1, BULHYEMIK_LOG_GRID);
    judged(&group, "fix\t5\t5\t200\tbasin\t54\n", 1, BULHYEMIK_LOG_SHIFT);
    judged(&group, "fix\t5\t5\t200\tbasin\t18446744073709551671\nfix", 1, BULHYEMIK_LOG_SHIFT);
    judged_in_parts(&group, "");
    judged_in_parts(&group, "fix\t5\t5\t200\tbasin\t55\nfix\t5\t5\t150\tbasin\t28\n");
    judged_in_parts(&group, "fix\t5\t5\t200\tbasin\t55\nfix\t5\t5\t150\tbasin\t28\nfix\t21\t5\t150\tbasin\t28\nfix\t5\t5\t200\tbasin\t54\n");
    judged_in_parts(&group, "fix\t5\t5\t200\tbasin\t55\nfix\t5\t5\t200\tbay\t55\n\nfix");
    memset(&fault, 0xa5, sizeof fault);
    EXPECT(bulhyemik_judge_log(&group, NODES, 6, bytes(zero), sizeof zero - 1, &fault, &place) == BULHYEMIK_ACCEPTED);
    EXPECT(place == 0 && fault.line == 2 && fault.kind == BULHYEMIK_LOG_FORM);
    memset(&fault, 0xa5, sizeof fault);
    place = 77;
    EXPECT(bulhyemik_judge_log(&group, NODES, 6, NULL, 0, &fault, &place) == BULHYEMIK_ACCEPTED && place == 0);
    EXPECT(all(&fault, sizeof fault, 0));
    EXPECT(bulhyemik_judge_log(&group, NULL, 0, NULL, 0, &fault, &place) == BULHYEMIK_FEW_NODES && place == 1);
    log_refused(&group, 5, BULHYEMIK_FEW_NODES, 1);
    group = three_grids();
    judged(&group, "fix\t10\t5\t200\tG2\t55\nfix\t10\t5\t200\tG3\t55\n", 2, BULHYEMIK_LOG_GRID);
    group.grid[2].rank = 1;
    log_refused(&group, 5, BULHYEMIK_SAME_RANK, 3);
    group.grid[2].lat = 324000000;
    log_refused(&group, 5, BULHYEMIK_BAD_EXTENT, 3);
    memcpy(group.grid[2].name, "G1", 2);
    log_refused(&group, 5, BULHYEMIK_SAME_NAME, 3);
    group.grid[0].rank = 0;
    log_refused(&group, 5, BULHYEMIK_BAD_NUMBER, 3);
}

/* A log line that is refused: nothing is written, even where there is no room. */
static void line_refused(const bulhyemik_group *group, const int32_t *nodes, size_t length, const bulhyemik_position *at,
                         uint64_t number, uint64_t where) {
    uint8_t out[BULHYEMIK_LOG_LINE_BYTES];
    uint64_t count = 77, place = 77;
    memset(out, 0xa5, sizeof out);
    EXPECT(bulhyemik_write_log_line(group, nodes, length, at, out, sizeof out, &count, &place) == number);
    EXPECT(count == 0 && place == where && all(out, sizeof out, 0xa5));
    count = place = 77;
    EXPECT(bulhyemik_write_log_line(group, nodes, length, at, NULL, 0, &count, &place) == number);
    EXPECT(count == 0 && place == where);
}

/* The line of a point in a group of the greatest numbers is the longest of all. */
static void longest_line(void) {
    static const char line[] =
        "fix\t-648000000\t-324000000\t-1000000\tABCDEFGHIJKLMNOPQRSTUVWX\t-171798691760\t-171798691760\t-171798691760\n";
    static int32_t nodes[12];
    bulhyemik_group group = dock();
    bulhyemik_position at = position(-648000000, -324000000, -1000000);
    uint8_t out[BULHYEMIK_LOG_LINE_BYTES];
    uint64_t count = 77, place = 77;
    int k;
    group.parameters = 3;
    group.functions = 8;
    for (k = 0; k < 8; k++) {
        group.function[k].numbers.ramp.a = group.function[k].numbers.ramp.b = 0;
        group.function[k].numbers.ramp.s0 = group.function[k].numbers.ramp.s1 = 10000000;
    }
    put_grid(&group.grid[0], "ABCDEFGHIJKLMNOPQRSTUVWX", at.lon, 2, 1);
    group.grid[0].lat = at.lat;
    for (k = 0; k < 12; k++)
        nodes[k] = -2147483647;
    memset(out, 0xa5, sizeof out);
    EXPECT(bulhyemik_write_log_line(&group, nodes, 12, &at, out, 101, &count, &place) == BULHYEMIK_BAD_LENGTH);
    EXPECT(count == 0 && place == 0 && all(out, sizeof out, 0xa5));
    EXPECT(bulhyemik_write_log_line(&group, nodes, 12, &at, out, 102, &count, &place) == BULHYEMIK_ACCEPTED);
    EXPECT(count == 102 && place == 0 && strlen(line) == 102 && memcmp(out, line, 102) == 0);
    EXPECT(all(out + 102, sizeof out - 102, 0xa5));
}

static void write_log_line(void) {
    static const char line[] = "fix\t5\t5\t150\tbasin\t28\n";
    const size_t length = strlen(line);
    bulhyemik_group group = dock();
    bulhyemik_position inside = position(5, 5, 150), beside = position(21, 10, 150);
    bulhyemik_position north = position(0, 324000001, 1000001), late = position(0, 0, 1000001);
    bulhyemik_fault fault;
    uint8_t out[BULHYEMIK_LOG_LINE_BYTES];
    int32_t nodes[6];
    uint64_t count = 77, place = 77;
    memset(out, 0xa5, sizeof out);
    EXPECT(bulhyemik_write_log_line(&group, NODES, 6, &inside, out, length - 1, &count, &place) == BULHYEMIK_BAD_LENGTH);
    EXPECT(count == 0 && place == 0 && all(out, sizeof out, 0xa5));
    line_refused(&group, NODES, 6, &north, BULHYEMIK_BAD_POINT, 0);
    line_refused(&group, NODES, 5, &late, BULHYEMIK_BAD_DAY, 0);
    line_refused(&group, NODES, 5, &beside, BULHYEMIK_FEW_NODES, 1);
    line_refused(&group, NULL, 0, &inside, BULHYEMIK_FEW_NODES, 1);
    line_refused(&group, NODES, 6, &beside, BULHYEMIK_NO_GRID, 0);
    memcpy(nodes, NODES, sizeof nodes);
    nodes[1] = BULHYEMIK_MARK;
    line_refused(&group, nodes, 6, &inside, BULHYEMIK_NO_DATA, 0);
    EXPECT(bulhyemik_write_log_line(&group, NODES, 6, &inside, NULL, 0, &count, &place) == BULHYEMIK_BAD_LENGTH && count == 0);
    count = place = 77;
    EXPECT(bulhyemik_write_log_line(&group, NODES, 6, &inside, out, length, &count, &place) == BULHYEMIK_ACCEPTED);
    EXPECT(count == length && place == 0 && memcmp(out, line, length) == 0);
    EXPECT(all(out + length, sizeof out - length, 0xa5));
    EXPECT(bulhyemik_judge_log(&group, NODES, 6, out, (size_t)count, &fault, &place) == BULHYEMIK_ACCEPTED);
    EXPECT(all(&fault, sizeof fault, 0));
    memset(out, 0xa5, sizeof out);
    EXPECT(bulhyemik_write_log_line(&group, NODES, 6, &inside, out, sizeof out, &count, &place) == BULHYEMIK_ACCEPTED);
    EXPECT(count == length && memcmp(out, line, length) == 0 && all(out + length, sizeof out - length, 0xa5));
    longest_line();
    group = three_grids();
    group.grid[2].rank = 1;
    line_refused(&group, NODES, 5, &north, BULHYEMIK_SAME_RANK, 3);
    group.grid[2].lat = 324000000;
    line_refused(&group, NODES, 5, &north, BULHYEMIK_BAD_EXTENT, 3);
    memcpy(group.grid[2].name, "G1", 2);
    line_refused(&group, NODES, 5, &north, BULHYEMIK_SAME_NAME, 3);
    group.grid[0].rank = 0;
    line_refused(&group, NODES, 5, &north, BULHYEMIK_BAD_NUMBER, 3);
}

/* Where points and areas end and a grid goes on: basin from 10 before the 180 degree meridian to 10 behind it. */
static void across_the_meridian(void) {
    static const int64_t east[3] = {648000001, 5, 200}, west[3] = {-648000001, 5, 200}, behind[3] = {-647999989, 5, 200};
    static const int64_t too_far[4] = {0, 648000001, 0, 10}, too_near[4] = {-648000001, 0, 0, 10};
    bulhyemik_group group = dock();
    bulhyemik_fix fix;
    bulhyemik_in_force list;
    bulhyemik_uncovered uncovered;
    uint64_t place;
    group.grid[0].lon = 647999990;
    EXPECT(bulhyemik_lookup(&group, NODES, 6, 647999995, 5, 200, &fix, &place) == BULHYEMIK_ACCEPTED && fix.result[0] == 55);
    EXPECT(bulhyemik_lookup(&group, NODES, 6, 648000000, 5, 200, &fix, &place) == BULHYEMIK_ACCEPTED && fix.result[0] == 60);
    EXPECT(bulhyemik_lookup(&group, NODES, 6, -648000000, 5, 200, &fix, &place) == BULHYEMIK_ACCEPTED && fix.result[0] == 60);
    EXPECT(bulhyemik_lookup(&group, NODES, 6, -647999995, 5, 200, &fix, &place) == BULHYEMIK_ACCEPTED && fix.result[0] == 65);
    lookup_refused(&group, NODES, 6, behind, BULHYEMIK_NO_GRID, 0);
    lookup_refused(&group, NODES, 6, east, BULHYEMIK_BAD_POINT, 0);
    lookup_refused(&group, NODES, 6, west, BULHYEMIK_BAD_POINT, 0);
    judged(&group, "fix\t-647999995\t5\t200\tbasin\t65\nfix\t648000005\t5\t200\tbasin\t65\n", 2, BULHYEMIK_LOG_REFUSED);
    EXPECT(bulhyemik_grids_in_force(&group, 0, 648000000, 0, 10, &list, &place) == BULHYEMIK_ACCEPTED);
    EXPECT(list.count == 1 && list.entry[0].lon == 647999990 && list.entry[0].lat == 0);
    EXPECT(bulhyemik_grids_in_force(&group, -648000000, 648000000, 0, 10, &list, &place) == BULHYEMIK_ACCEPTED);
    EXPECT(list.count == 1 && list.entry[0].lon == -648000000 && list.entry[0].lat == 0);
    EXPECT(bulhyemik_grids_in_force(&group, 0, 648000001, 0, 10, &list, &place) == BULHYEMIK_BAD_AREA && all(&list, sizeof list, 0));
    EXPECT(bulhyemik_hole(&group, -648000000, -647999990, 0, 10, &uncovered, &place) == 0 && uncovered.found == 0);
    EXPECT(bulhyemik_hole(&group, -648000000, -647999989, 0, 10, &uncovered, &place) == 0);
    EXPECT(uncovered.found == 1 && uncovered.lon == -647999989 && uncovered.lat == 0);
    hole_refused(&group, too_far, BULHYEMIK_BAD_AREA, 0);
    hole_refused(&group, too_near, BULHYEMIK_BAD_AREA, 0);
}

/* A grid may be a turn wide and no wider; grids of equal rank clash where they hold a common point, however they are turned. */
static void judge_turned(void) {
    bulhyemik_group group = dock();
    uint64_t place = 77;
    group.grid[0].lon = -648000000;
    group.grid[0].dlon = 1000000;
    group.grid[0].ni = 1297;
    EXPECT(bulhyemik_judge(&group, &place) == BULHYEMIK_ACCEPTED && place == 0);
    group.grid[0].dlon = 952241;
    group.grid[0].ni = 1362;
    EXPECT(bulhyemik_judge(&group, &place) == BULHYEMIK_BAD_EXTENT && place == 1);
    group = dock();
    group.grids = 2;
    put_grid(&group.grid[0], "G1", 647999980, 3, 1);
    put_grid(&group.grid[1], "G2", -648000000, 3, 1);
    EXPECT(bulhyemik_judge(&group, &place) == BULHYEMIK_SAME_RANK && place == 2);
    group.grid[1].lon = -647999999;
    EXPECT(bulhyemik_judge(&group, &place) == BULHYEMIK_ACCEPTED && place == 0);
    group.grid[0].lon = 1295999980;
    group.grid[1].lon = -1296000000;
    EXPECT(bulhyemik_judge(&group, &place) == BULHYEMIK_SAME_RANK && place == 2);
    group.grid[0].lon = 1295999979;
    EXPECT(bulhyemik_judge(&group, &place) == BULHYEMIK_ACCEPTED && place == 0);
}

/* The result in a cell of the greatest spacing with these corners. */
static int64_t coarse(int64_t lon, int64_t lat, int32_t sw, int32_t se, int32_t nw, int32_t ne) {
    bulhyemik_group group = dock();
    bulhyemik_position at = position(lon, lat, 200);
    bulhyemik_answer answer;
    bulhyemik_fix fix;
    uint64_t place = 77;
    int32_t nodes[4];
    nodes[0] = sw;
    nodes[1] = se;
    nodes[2] = nw;
    nodes[3] = ne;
    group.grid[0].dlon = group.grid[0].dlat = 36000000;
    group.grid[0].ni = 2;
    EXPECT(bulhyemik_lookup(&group, nodes, 4, lon, lat, 200, &fix, &place) == BULHYEMIK_ACCEPTED && place == 0);
    EXPECT(bulhyemik_lookup_many(&group, nodes, 4, &at, 1, &answer, 1, &place) == BULHYEMIK_ACCEPTED && answer.number == 0);
    EXPECT(memcmp(&answer.fix, &fix, sizeof fix) == 0);
    return fix.result[0];
}

/* Ten degrees from node to node, and the greatest values. */
static void coarse_grids(void) {
    const int32_t most = 2147483647;
    bulhyemik_group group = dock();
    uint64_t place = 77;
    EXPECT(coarse(18000000, 18000000, most, most, most, most) == most);
    EXPECT(coarse(18000000, 18000000, -most, -most, -most, -most) == -most);
    EXPECT(coarse(18000000, 18000000, most, most, most, -most) == 1073741824);
    EXPECT(coarse(18000000, 18000000, -most, most, -most, -most) == -1073741824);
    EXPECT(coarse(18000000, 18000000, most, most, most - 1, most - 1) == most - 1);
    EXPECT(coarse(1, 0, most, -most, BULHYEMIK_MARK, BULHYEMIK_MARK) == 2147483528);
    EXPECT(coarse(36000000, 36000000, -most, BULHYEMIK_MARK, -most, most) == most);
    group.grid[0].dlon = 36000000;
    group.grid[0].dlat = -36000000;
    EXPECT(bulhyemik_judge(&group, &place) == BULHYEMIK_ACCEPTED && place == 0);
    group.grid[0].dlat = -36000001;
    EXPECT(bulhyemik_judge(&group, &place) == BULHYEMIK_BAD_NUMBER && place == 3);
    group.grid[0].dlat = 36000000;
    group.grid[0].dlon = 36000001;
    EXPECT(bulhyemik_judge(&group, &place) == BULHYEMIK_BAD_NUMBER && place == 3);
}

static void load_nodes(void) {
    static const float floats[3] = {0.5f, 1.5f, -9999.0f};
    static const float greatest[2] = {2147483520.0f, -2147483520.0f}, beyond[2] = {0.0f, 2147483648.0f};
    static const float mark[2] = {-2147483520.0f, -2147483648.0f};
    int32_t nodes[3];
    uint64_t place = 77;
    memset(nodes, 0xa5, sizeof nodes);
    EXPECT(bulhyemik_load_nodes(floats, 3, -9999.0f, -1, nodes, 2, &place) == BULHYEMIK_BAD_NUMBER && place == 0);
    EXPECT(bulhyemik_load_nodes(floats, 3, -9999.0f, 21, nodes, 3, &place) == BULHYEMIK_BAD_NUMBER && place == 0);
    EXPECT(bulhyemik_load_nodes(floats, 3, -9999.0f, 0, nodes, 2, &place) == BULHYEMIK_BAD_LENGTH && place == 0);
    EXPECT(bulhyemik_load_nodes(floats, 3, 0.0f, 20, nodes, 3, &place) == BULHYEMIK_BAD_NODE && place == 3);
    EXPECT(bulhyemik_load_nodes(beyond, 2, 0.0f, 0, nodes, 2, &place) == BULHYEMIK_BAD_NODE && place == 2);
    EXPECT(bulhyemik_load_nodes(mark, 2, 0.0f, 0, nodes, 2, &place) == BULHYEMIK_BAD_NODE && place == 2);
    EXPECT(all(nodes, sizeof nodes, 0xa5));
    EXPECT(bulhyemik_load_nodes(greatest, 2, 0.0f, 0, nodes, 2, &place) == BULHYEMIK_ACCEPTED && place == 0);
    EXPECT(nodes[0] == 2147483520 && nodes[1] == -2147483520);
    EXPECT(bulhyemik_load_nodes(mark, 2, -2147483648.0f, 0, nodes, 2, &place) == BULHYEMIK_ACCEPTED);
    EXPECT(nodes[0] == -2147483520 && nodes[1] == BULHYEMIK_MARK);
    EXPECT(bulhyemik_load_nodes(floats, 3, -9999.0f, 0, nodes, 3, &place) == BULHYEMIK_ACCEPTED && place == 0);
    EXPECT(nodes[0] == 0 && nodes[1] == 2 && nodes[2] == BULHYEMIK_MARK);
    place = 77;
    EXPECT(bulhyemik_load_nodes(NULL, 0, 0.0f, 0, NULL, 0, &place) == BULHYEMIK_ACCEPTED && place == 0);
}

/* What both screen calls answer to a refusal, and that their floats are +0. */
static void screen_refused(int64_t quantum, int64_t parameters, uint64_t number, uint64_t at, uint64_t told, uint64_t where) {
    bulhyemik_fix fix = {1, {55, 56, 57}};
    bulhyemik_screen screen;
    double shifts[3];
    uint64_t place = 77;
    memset(&screen, 0xa5, sizeof screen);
    memset(shifts, 0xa5, sizeof shifts);
    EXPECT(bulhyemik_screen_answer(quantum, parameters, number, at, &fix, shifts, &place) == told);
    EXPECT(place == where && all(shifts, sizeof shifts, 0));
    place = 77;
    EXPECT(bulhyemik_screen_record(5, 5, quantum, parameters, number, at, &fix, &screen, &place) == told);
    EXPECT(place == where && all(&screen, sizeof screen, 0));
}

static void screens(void) {
    bulhyemik_fix fix = {1, {55, 56, 57}};
    bulhyemik_screen screen;
    double shifts[3];
    uint64_t place = 77, number;
    EXPECT(bulhyemik_screen_answer(13, 2, 0, 77, &fix, shifts, &place) == BULHYEMIK_ACCEPTED && place == 0);
    EXPECT(same(shifts[0], 55.0 / 8192.0) && same(shifts[1], 56.0 / 8192.0) && same(shifts[2], 0.0));
    place = 77;
    EXPECT(bulhyemik_screen_record(3600000, -1800000, 0, 3, 0, 0, &fix, &screen, &place) == BULHYEMIK_ACCEPTED);
    EXPECT(place == 0 && same(screen.longitude, 1.0) && same(screen.latitude, -0.5));
    EXPECT(same(screen.shift[0], 55.0) && same(screen.shift[1], 56.0) && same(screen.shift[2], 57.0));
    fix.result[0] = -171798691760;
    EXPECT(bulhyemik_screen_answer(20, 1, 0, 0, &fix, shifts, &place) == BULHYEMIK_ACCEPTED);
    EXPECT(same(shifts[0], 80.0 / 1048576.0 - 163840.0));
    for (number = 1; number <= 13; number++)
        screen_refused(13, 1, number, 7, number, 7);
    screen_refused(13, 1, 14, 7, BULHYEMIK_BAD_NUMBER, 0);
    screen_refused(13, 1, UINT64_MAX, 7, BULHYEMIK_BAD_NUMBER, 0);
    screen_refused(-1, 1, BULHYEMIK_NO_GRID, 7, BULHYEMIK_BAD_NUMBER, 0);
    screen_refused(21, 1, BULHYEMIK_ACCEPTED, 7, BULHYEMIK_BAD_NUMBER, 0);
    screen_refused(13, -1, BULHYEMIK_ACCEPTED, 7, BULHYEMIK_BAD_NUMBER, 0);
    screen_refused(13, 0, BULHYEMIK_ACCEPTED, 7, BULHYEMIK_BAD_NUMBER, 0);
    screen_refused(13, 4, BULHYEMIK_ACCEPTED, 7, BULHYEMIK_BAD_NUMBER, 0);
}

int main(void) {
    version();
    read_header();
    read_refused_headers();
    judge();
    functions();
    refused_functions();
    write_header();
    field();
    lookup();
    lookup_many();
    grids_in_force();
    hole();
    judge_log();
    write_log_line();
    across_the_meridian();
    judge_turned();
    coarse_grids();
    load_nodes();
    screens();
    printf("%d checks, %d failed\n", checks, failures);
    return failures == 0 ? 0 : 1;
}
