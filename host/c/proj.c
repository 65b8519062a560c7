/* Many points by PROJ (one step of vgridshift) and by the library, over the same grid of one parameter: prints the best time of
 * each for one point, as a Markdown table. Answers that are further apart than the library's rounding end it with status 2.
 * C99; it needs PROJ (Debian's libproj-dev), and `make bench` runs it where that is installed. */

#define _XOPEN_SOURCE 700
#include "bulhyemik.h"

#include <math.h>
#include <proj.h>
#include <stdio.h>
#include <stdlib.h>
#include <string.h>
#include <time.h>
#include <unistd.h>

enum { SIDE = 1000, SPACING = 3600, Q = 10, POINTS = 100000, RUNS = 25 };

static const double RADIANS = 3.14159265358979323846 / 180 / 3600000; /* of a milliarcsecond */

static bulhyemik_group group;
static int32_t nodes[SIDE * SIDE];
static bulhyemik_position points[POINTS];
static bulhyemik_answer results[POINTS];
static double xs[POINTS], ys[POINTS], zs[POINTS];
static char folder[] = "/tmp/bulhyemik-proj.XXXXXX", path[64];

static void clean(void) {
    remove(path);
    rmdir(folder);
}

static void stop(const char *why) {
    fprintf(stderr, "proj: %s\n", why);
    exit(2);
}

/* The lowest `count` bytes of a number, the highest first. */
static void put(FILE *file, uint64_t bits, int count) {
    while (count-- > 0)
        putc((int)(bits >> 8 * count & 0xff), file);
}

static void put_double(FILE *file, double x) {
    uint64_t bits;
    memcpy(&bits, &x, sizeof bits);
    put(file, bits, 8);
}

static void put_float(FILE *file, float x) {
    uint32_t bits;
    memcpy(&bits, &x, sizeof bits);
    put(file, bits, 4);
}

/* The grid as the library takes it, and as a GTX file: south, west, spacings in degrees, rows, columns, then the values. */
static void make_grid(void) {
    static const char head[] = "group\tone\tmetre\t10\t1\t0\t1\ngrid\tsea\t0\t0\t3600\t3600\t1000\t1000\t1\t0\n";
    FILE *file = fopen(path, "wb");
    uint64_t place;
    int k;
    if (file == NULL || bulhyemik_read_header((const uint8_t *)head, strlen(head), &group, &place) != BULHYEMIK_ACCEPTED)
        stop("the grid can't be made");
    put_double(file, 0);
    put_double(file, 0);
    put_double(file, SPACING / 3600000.0);
    put_double(file, SPACING / 3600000.0);
    put(file, SIDE, 4);
    put(file, SIDE, 4);
    for (k = 0; k < SIDE * SIDE; k++) {
        nodes[k] = (int32_t)((int64_t)k * 7919 % 80001 - 40000);
        put_float(file, (float)ldexp(nodes[k], -Q));
    }
    if (fclose(file) != 0)
        stop("the grid can't be written");
}

static uint64_t state = 88172645463325252u;

static int64_t random_below(int64_t limit) {
    state ^= state << 13;
    state ^= state >> 7;
    state ^= state << 17;
    return (int64_t)(state % (uint64_t)limit);
}

/* Neighbouring points, or points anywhere in the grid, but for its edges. */
static void make_points(int scattered) {
    const int64_t width = (SIDE - 1) * SPACING - 2;
    int k;
    for (k = 0; k < POINTS; k++) {
        points[k].lon = 1 + (scattered ? random_below(width) : (int64_t)k * 97 % width);
        points[k].lat = 1 + (scattered ? random_below(width) : (int64_t)k * 61 % width);
        points[k].day = 0;
    }
}

static double seconds(void) {
    struct timespec now;
    clock_gettime(CLOCK_MONOTONIC, &now);
    return (double)now.tv_sec + 1e-9 * (double)now.tv_nsec;
}

/* PROJ shifts the coordinates that it is lent, so they are made anew for each run, which is not timed. */
static double by_proj(PJ *shift) {
    double start;
    int k;
    for (k = 0; k < POINTS; k++) {
        xs[k] = (double)points[k].lon * RADIANS;
        ys[k] = (double)points[k].lat * RADIANS;
        zs[k] = 0;
    }
    start = seconds();
    if (proj_trans_generic(shift, PJ_FWD, xs, sizeof *xs, POINTS, ys, sizeof *ys, POINTS, zs, sizeof *zs, POINTS, NULL, 0,
                           0) != POINTS)
        stop("PROJ did not shift all points");
    return seconds() - start;
}

static double by_library(void) {
    double start = seconds();
    uint64_t place;
    if (bulhyemik_lookup_many(&group, nodes, SIDE * SIDE, points, POINTS, results, POINTS, &place) != BULHYEMIK_ACCEPTED)
        stop("the library refuses the call");
    return seconds() - start;
}

static void row(const char *name, PJ *shift, int scattered) {
    double proj = 1e9, library = 1e9, once;
    int k;
    make_points(scattered);
    for (k = 0; k < RUNS; k++) {
        once = by_proj(shift);
        proj = once < proj ? once : proj;
        once = by_library();
        library = once < library ? once : library;
    }
    for (k = 0; k < POINTS; k++)
        if (results[k].number != BULHYEMIK_ACCEPTED || !(fabs(ldexp(zs[k], Q) - (double)results[k].fix.result[0]) < 0.51))
            stop("PROJ and the library differ by more than half a step");
    printf("| %s | %.1f ns | %.1f ns | %.2f |\n", name, 1e9 * proj / POINTS, 1e9 * library / POINTS, library / proj);
}

int main(void) {
    char text[128];
    PJ_CONTEXT *context = proj_context_create();
    PJ *shift;
    if (mkdtemp(folder) == NULL)
        stop("there is no temporary folder");
    sprintf(path, "%s/sea.gtx", folder);
    atexit(clean);
    make_grid();
    sprintf(text, "+proj=vgridshift +grids=%s +multiplier=1", path);
    shift = proj_create(context, text);
    if (shift == NULL)
        stop("PROJ does not take the grid");
    printf("| one point, one parameter | PROJ | library | library / PROJ |\n|---|---:|---:|---:|\n");
    row("a track", shift, 0);
    row("random", shift, 1);
    proj_destroy(shift);
    proj_context_destroy(context);
    return 0;
}
