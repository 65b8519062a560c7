/* bulhyemik.h: the C interface of Bulhyemik, shift grids for simulators.
 *
 * A group of grids is read from its header text once (bulhyemik_read_header) and handed to every other call as one struct.
 *
 * Units
 *   Longitudes, latitudes and spacings are whole milliarcseconds (mas): 1 degree is 3,600,000. Nodes and results are whole
 *   steps: one step is 2 to the power -Q of the group's unit. Days are plain numbers. Factors are millionths.
 *
 * Limits
 *   longitude of points and areas +-648,000,000          latitude +-324,000,000
 *   longitude of a grid's edges +-1,296,000,000          width of a grid at most 1,296,000,000, a whole turn
 *   day +-1,000,000, and so A, B, EVENT, REF and START and END of a ramp2             S0, S1, MULT +-10,000,000
 *   DLON, DLAT 1 to 36,000,000 in size, not 0            NI, NJ 2 to 16,384      rank 1 to 1,000
 *   START of a grid 0 to 16,777,215   Q 0 to 20          functions of time 0 to 8, all kinds together      grids 1 to 64
 *   NP 1 to 3                                            name 1 to 24 bytes of A to Z, a to z, 0 to 9, `_`, `-`
 *   node value +-2,147,483,647, or the no-data mark      from which follow results of a lookup of at most +-171,798,691,760
 *
 * What every function has in common
 * - It returns the number of the refusal, BULHYEMIK_ACCEPTED (0) if the call is accepted, and writes the refusal's place to
 *   `*place`: a line, a grid from 1 or a position from 1, and 0 if none is named. Where several refusals apply, the one that
 *   comes first in the function's list counts. (bulhyemik_version and bulhyemik_field refuse nothing and have no place.)
 * - Lent memory: `out`, `nodes`, `results` and the group to be read are unchanged after every refusal of the call. Place, fix,
 *   list, uncovered, fault, count, shifts and screen are the handed-back answer: every call writes them whole, and beside a
 *   refusal all but the place are 0. What a call takes as const is only read.
 * - It is total: any numbers, any bytes and any lengths get the answer that this page gives. Nothing is asked of the caller
 *   but valid memory: a pointer that is not NULL, aligned for its type, good for its type or for the length beside it, and
 *   written memory that overlaps no other argument. `text`, `nodes`, `points`, `results`, `log`, `floats`, `out` and `line` may
 *   be NULL where the length beside them is 0. A length counts elements, not bytes.
 * - It keeps no memory, allocates none and has no state; calls may run at once on different threads. It needs at most 96 KiB
 *   of stack.
 * - bulhyemik_screen_answer and bulhyemik_screen_record want the processor to round to nearest, as it does unless fesetround
 *   was called: otherwise degrees, and shifts of results beyond 2 to the power 53, which no lookup has, can differ in the last
 *   bit. No other call minds the rounding mode, and none minds flush-to-zero.
 *
 * docs/RULES.md says how a header text is written, how each answer is worked out, and when each refusal comes.
 *
 * The examples are one program, host/c/examples.c, which the tests compile and run. In it stand <stdio.h> and <string.h>,
 * `bulhyemik_group group`, which the example of bulhyemik_read_header fills, `uint64_t place`, and the nodes of that group:
 *
 *     static const int32_t nodes[6] = {0, 10, 20, 100, 110, 120};
 */
#ifndef BULHYEMIK_H
#define BULHYEMIK_H

#include <stddef.h>
#include <stdint.h>

#ifdef __cplusplus
extern "C" {
#endif

/* The version of this page: major * 1,000,000 + minor * 1,000 + patch; bulhyemik_version answers the library's. An added call
 * raises the minor number; a changed struct, limit or meaning raises the major one. */
#define BULHYEMIK_VERSION 4000000

/* The library takes the bytes of a name eight at a time, the first as the lowest of a number. */
#if defined(__BYTE_ORDER__) && defined(__ORDER_LITTLE_ENDIAN__)
#if __BYTE_ORDER__ != __ORDER_LITTLE_ENDIAN__
#error "bulhyemik.h: the library is made for machines that store the lowest byte of a number first"
#endif
#endif

/* The refusals, and their places. */
enum bulhyemik_refusal {
    BULHYEMIK_ACCEPTED = 0,    /* no refusal; place 0 */
    BULHYEMIK_BAD_FORM = 1,    /* header text not of its form, or it ends early; first bad or missing line */
    BULHYEMIK_BAD_NUMBER = 2,  /* number outside its limit, A above B, START not below END, a kind that is none, malformed name,
                                * unused entry or word not zero; its line, or 0 */
    BULHYEMIK_SAME_NAME = 3,   /* grid name stands earlier; lowest such grid */
    BULHYEMIK_BAD_EXTENT = 4,  /* far edge or width outside its limit, or START + NI*NJ*NP above 16,777,216; lowest such grid */
    BULHYEMIK_SAME_RANK = 5,   /* holds a point that an earlier grid of its rank holds too; lowest such later grid */
    BULHYEMIK_BAD_POINT = 6,   /* point outside the limits; 0 */
    BULHYEMIK_NO_GRID = 7,     /* no grid holds the point; 0 */
    BULHYEMIK_NO_DATA = 8,     /* a used corner is the no-data mark, any parameter; 0 */
    BULHYEMIK_BAD_DAY = 9,     /* day outside the limit; 0 */
    BULHYEMIK_BAD_AREA = 10,   /* area: a side outside the limits, west above east or south above north; 0 */
    BULHYEMIK_BAD_NODE = 11,   /* loading: a float is infinite or rounds beyond +-2,147,483,647 steps; first position, from 1 */
    BULHYEMIK_BAD_LENGTH = 12, /* lent output too short (writing) or of another length (loading, many points); 0 */
    BULHYEMIK_FEW_NODES = 13   /* node list ends before some grid's range does; lowest such grid */
};

/* The units of a group's steps. */
enum bulhyemik_unit { BULHYEMIK_ARC_SECOND = 0, BULHYEMIK_METRE = 1 };

/* The kinds of a group's functions of time; the words of their lines are `ramp`, `step` and `ramp2`. */
enum bulhyemik_function_kind { BULHYEMIK_RAMP = 0, BULHYEMIK_STEP = 1, BULHYEMIK_RAMP2 = 2 };

/* The kinds of a fault in a log, in the order in which a line is tested. */
enum bulhyemik_log_kind {
    BULHYEMIK_LOG_PASSES = 0,  /* the log has no bad line; line 0 */
    BULHYEMIK_LOG_FORM = 1,    /* line not of its form, not closed by a line feed, or of more or fewer values than NP */
    BULHYEMIK_LOG_REFUSED = 2, /* the lookup is refused, by whatever number */
    BULHYEMIK_LOG_GRID = 3,    /* the name is not the chosen grid's */
    BULHYEMIK_LOG_SHIFT = 4    /* a value is not the lookup's result */
};

enum bulhyemik_size {
    BULHYEMIK_NAME_BYTES = 24,      /* bytes of a name, used or not */
    BULHYEMIK_MOST_FUNCTIONS = 8,   /* functions of time of a group, used or not */
    BULHYEMIK_MOST_GRIDS = 64,      /* grids of a group, used or not */
    BULHYEMIK_MOST_PARAMETERS = 3,  /* results of a lookup, used or not */
    BULHYEMIK_HEADER_BYTES = 16384, /* holds every header of this and later versions (proved today: at most 6,732 bytes) */
    BULHYEMIK_LOG_LINE_BYTES = 128  /* holds every log line of this and later versions (proved today: at most 102 bytes) */
};

/* The no-data mark of a node list; every other number is a value. */
#define BULHYEMIK_MARK INT32_MIN

/* A ramp: its factor is `s0` at and before day `a`, `s1` at and after day `b`, and in a straight line between them, rounded to
 * the nearest, a tie to even; on a day that is both, `s1`. */
typedef struct {
    int64_t a;  /* day, not above b */
    int64_t s0; /* factor, in millionths */
    int64_t b;  /* day */
    int64_t s1; /* factor, in millionths */
} bulhyemik_ramp;

/* A step: with f(t) = 0 before the event, and 1 on its day and after it, the factor is mult * (f(day) - f(reference)). */
typedef struct {
    int64_t event;     /* day */
    int64_t reference; /* day */
    int64_t mult;      /* in millionths */
    int64_t unused;    /* 0: a step has no fourth number */
} bulhyemik_step;

/* A ramp by its reference day: with f(t) = 0 up to `start`, 1 from `end` on, and (t - start) / (end - start) between them, the
 * factor is mult * (f(day) - f(reference)), one exact fraction that is rounded once, to the nearest, a tie to even. */
typedef struct {
    int64_t start;     /* day, below end */
    int64_t end;       /* day */
    int64_t reference; /* day */
    int64_t mult;      /* in millionths */
} bulhyemik_ramp2;

/* A function of time: its kind, and the numbers of that kind. Refused by 2 at the function's line is a kind that is none of the
 * three, and a word that the kind has not got where it is not 0. An unused function is a ramp of zeros: all five words are 0.
 *
 *     group.function[0].kind = BULHYEMIK_STEP;
 *     group.function[0].numbers.step.event = 150;
 *     group.function[0].numbers.step.reference = 0;
 *     group.function[0].numbers.step.mult = 1000000;
 *     group.function[0].numbers.step.unused = 0;
 */
typedef struct {
    int64_t kind; /* one of bulhyemik_function_kind */
    union {
        bulhyemik_ramp ramp;
        bulhyemik_step step;
        bulhyemik_ramp2 ramp2;
    } numbers; /* the member of the kind */
} bulhyemik_function;

/* A grid: node (i, j) lies at lon + i*dlon, lat + j*dlat, and its parameter p, from 0, stands in the node list at
 * start + (j*ni + i)*NP + p. */
typedef struct {
    uint8_t name[BULHYEMIK_NAME_BYTES]; /* zeros behind it, so that one of 24 bytes has no closing zero: print it by `%.24s` */
    int64_t name_length;                /* 1 to 24 */
    int64_t lon, lat;                   /* of node (0, 0), in mas */
    int64_t dlon, dlat;                 /* spacings, in mas; signed, not 0 */
    int64_t ni, nj;                     /* counts of nodes */
    int64_t rank;                       /* 1 is best; grids that hold the same point differ in it */
    int64_t start;                      /* first position in the node list, from 0 */
} bulhyemik_grid;

/* A group. Entries behind a count are all zero; one that is not, as a step of zeros, whose kind is 1, is refused by 2 at line 1.
 * All numbers are signed, so that any can be judged: one below zero is outside the limit of a count, and a unit that is neither
 * of the two is refused by 2 at line 1. */
typedef struct {
    uint8_t name[BULHYEMIK_NAME_BYTES];                    /* as a grid's */
    int64_t name_length;                                   /* 1 to 24 */
    int64_t unit;                                          /* BULHYEMIK_ARC_SECOND or BULHYEMIK_METRE */
    int64_t quantum;                                       /* Q: one step is 2 to the power -Q of the unit */
    int64_t parameters;                                    /* NP: results of a lookup */
    int64_t functions;                                     /* count of functions of time, all kinds together */
    int64_t grids;                                         /* count of grids */
    bulhyemik_function function[BULHYEMIK_MOST_FUNCTIONS]; /* as written; their factors are added; with none the factor is 1 */
    bulhyemik_grid grid[BULHYEMIK_MOST_GRIDS];             /* grid number k is grid[k - 1]; no two grids share a name */
} bulhyemik_group;

/* What a lookup finds. */
typedef struct {
    int64_t grid;                              /* number of the chosen grid, from 1 */
    int64_t result[BULHYEMIK_MOST_PARAMETERS]; /* in steps, at most +-171,798,691,760; a missing parameter is 0 */
} bulhyemik_fix;

/* A point on a day: one of many that are looked up at once, or that of a log's line. */
typedef struct {
    int64_t lon, lat; /* in mas */
    int64_t day;
} bulhyemik_position;

/* The answer to one point of many: what bulhyemik_lookup returns, its place, and what it finds. */
typedef struct {
    uint64_t number;   /* the point's own refusal, 6, 7, 8 or 9, or 0 */
    uint64_t place;    /* 0, since none of these names one */
    bulhyemik_fix fix; /* zeros beside a refusal */
} bulhyemik_answer;

/* A grid in force, and of the area's coordinates at which it is chosen the southmost, of these the westmost. */
typedef struct {
    int64_t grid;     /* its number, from 1 */
    int64_t lon, lat; /* in mas */
} bulhyemik_entry;

/* The grids in force in an area, by rank, best first, and at equal ranks by number. */
typedef struct {
    int64_t count;                               /* how many there are, 0 to 64 */
    bulhyemik_entry entry[BULHYEMIK_MOST_GRIDS]; /* the first `count` are theirs; the others are zero */
} bulhyemik_in_force;

/* Whether an area has a coordinate that no grid holds, and the southmost, then westmost such. */
typedef struct {
    int64_t found;    /* 1 if there is one, else 0; ask this, since 0, 0 can be a hole too */
    int64_t lon, lat; /* in mas; zeros where there is none */
} bulhyemik_uncovered;

/* The first bad line of a log, and the kind of its fault. */
typedef struct {
    uint64_t line; /* from 1; 0 where the log passes */
    uint64_t kind; /* one of bulhyemik_log_kind; 0 where the log passes */
} bulhyemik_fault;

/* A field of a line: its bytes from `from` up to, not with, `to`. */
typedef struct {
    uint64_t from, to; /* from 0; both are the line's length where there is no such field */
} bulhyemik_part;

/* A point and its shifts for the screen. */
typedef struct {
    double longitude, latitude;              /* in degrees */
    double shift[BULHYEMIK_MOST_PARAMETERS]; /* in units; a missing parameter is +0 */
} bulhyemik_screen;

/* The library reads and writes these structs as arrays of 64-bit words: a compiler that lays them out otherwise stops here. */
#define BULHYEMIK_WORDS(type, words) \
    typedef char bulhyemik_##type##_words[sizeof(bulhyemik_##type) == 8 * (words) ? 1 : -1]
#define BULHYEMIK_WORD(type, field, word) \
    typedef char bulhyemik_##type##_##field##_word[offsetof(bulhyemik_##type, field) == 8 * (word) ? 1 : -1]
BULHYEMIK_WORDS(ramp, 4);
BULHYEMIK_WORD(ramp, a, 0);
BULHYEMIK_WORD(ramp, s0, 1);
BULHYEMIK_WORD(ramp, b, 2);
BULHYEMIK_WORD(ramp, s1, 3);
BULHYEMIK_WORDS(step, 4);
BULHYEMIK_WORD(step, event, 0);
BULHYEMIK_WORD(step, reference, 1);
BULHYEMIK_WORD(step, mult, 2);
BULHYEMIK_WORD(step, unused, 3);
BULHYEMIK_WORDS(ramp2, 4);
BULHYEMIK_WORD(ramp2, start, 0);
BULHYEMIK_WORD(ramp2, end, 1);
BULHYEMIK_WORD(ramp2, reference, 2);
BULHYEMIK_WORD(ramp2, mult, 3);
BULHYEMIK_WORDS(function, 5);
BULHYEMIK_WORD(function, kind, 0);
BULHYEMIK_WORD(function, numbers, 1);
BULHYEMIK_WORDS(grid, 12);
BULHYEMIK_WORD(grid, name, 0);
BULHYEMIK_WORD(grid, name_length, 3);
BULHYEMIK_WORD(grid, lon, 4);
BULHYEMIK_WORD(grid, lat, 5);
BULHYEMIK_WORD(grid, dlon, 6);
BULHYEMIK_WORD(grid, dlat, 7);
BULHYEMIK_WORD(grid, ni, 8);
BULHYEMIK_WORD(grid, nj, 9);
BULHYEMIK_WORD(grid, rank, 10);
BULHYEMIK_WORD(grid, start, 11);
BULHYEMIK_WORDS(group, 817);
BULHYEMIK_WORD(group, name, 0);
BULHYEMIK_WORD(group, name_length, 3);
BULHYEMIK_WORD(group, unit, 4);
BULHYEMIK_WORD(group, quantum, 5);
BULHYEMIK_WORD(group, parameters, 6);
BULHYEMIK_WORD(group, functions, 7);
BULHYEMIK_WORD(group, grids, 8);
BULHYEMIK_WORD(group, function, 9);
BULHYEMIK_WORD(group, grid, 49);
BULHYEMIK_WORDS(fix, 4);
BULHYEMIK_WORD(fix, grid, 0);
BULHYEMIK_WORD(fix, result, 1);
BULHYEMIK_WORDS(position, 3);
BULHYEMIK_WORD(position, lon, 0);
BULHYEMIK_WORD(position, lat, 1);
BULHYEMIK_WORD(position, day, 2);
BULHYEMIK_WORDS(answer, 6);
BULHYEMIK_WORD(answer, number, 0);
BULHYEMIK_WORD(answer, place, 1);
BULHYEMIK_WORD(answer, fix, 2);
BULHYEMIK_WORDS(entry, 3);
BULHYEMIK_WORD(entry, grid, 0);
BULHYEMIK_WORD(entry, lon, 1);
BULHYEMIK_WORD(entry, lat, 2);
BULHYEMIK_WORDS(in_force, 193);
BULHYEMIK_WORD(in_force, count, 0);
BULHYEMIK_WORD(in_force, entry, 1);
BULHYEMIK_WORDS(uncovered, 3);
BULHYEMIK_WORD(uncovered, found, 0);
BULHYEMIK_WORD(uncovered, lon, 1);
BULHYEMIK_WORD(uncovered, lat, 2);
BULHYEMIK_WORDS(fault, 2);
BULHYEMIK_WORD(fault, line, 0);
BULHYEMIK_WORD(fault, kind, 1);
BULHYEMIK_WORDS(part, 2);
BULHYEMIK_WORD(part, from, 0);
BULHYEMIK_WORD(part, to, 1);
BULHYEMIK_WORDS(screen, 5);
BULHYEMIK_WORD(screen, longitude, 0);
BULHYEMIK_WORD(screen, latitude, 1);
BULHYEMIK_WORD(screen, shift, 2);
#undef BULHYEMIK_WORDS
#undef BULHYEMIK_WORD

/* Answers the version of the library, as BULHYEMIK_VERSION is of this page. A program works with every library of the same
 * major number and at least its own minor one. Nothing is refused.
 *
 *     uint64_t version = bulhyemik_version();
 *     if (version / 1000000 != BULHYEMIK_VERSION / 1000000 || version / 1000 < BULHYEMIK_VERSION / 1000)
 *         printf("this program needs another library\n");
 */
uint64_t bulhyemik_version(void);

/* Judges a group as its header text would be judged.
 *
 * Units and limits: as on top of this page.
 * Refusals, in this order: 2 at the least line that has a number outside its limit, A above B, START not below END, a kind that
 * is none, a word that its kind has not got and that is not zero, a malformed name or a byte that is not zero behind it (1 is
 * the group's line, then come the functions' and the grids'; an unused entry that is not zero counts for line 1); 3, then 4,
 * then 5, each at the lowest such grid. 4 is a far edge outside the limits, a grid wider than a whole turn, or nodes that end
 * above 16,777,216. 5 is an admitted point that the grid and an earlier one of its rank both hold, as bulhyemik_lookup says; so
 * grids can meet across the 180 degree meridian, and one that ends there holds both -648,000,000 and 648,000,000.
 * Lent memory: `*group` is read.
 *
 *     group.quantum = 21;
 *     if (bulhyemik_judge(&group, &place) == BULHYEMIK_BAD_NUMBER)
 *         printf("line %lu has a number outside its limit\n", (unsigned long)place);
 *     group.quantum = 13;
 */
uint64_t bulhyemik_judge(const bulhyemik_group *group, uint64_t *place);

/* Reads a header text: text_len bytes of any kind, not closed by a zero byte. One record a line, fields parted by one tab,
 * each line closed by one line feed: `group` NAME UNIT Q NP FUNCTIONS GRIDS, then for each function of time, in any mixture,
 * `ramp` A S0 B S1, `step` EVENT REF MULT or `ramp2` START END REF MULT, then for each grid `grid` NAME LON LAT DLON DLAT NI NJ
 * RANK START. UNIT is `arc-second` or `metre`. Numbers are decimal, below zero led by `-`, with no plus, no leading zero and
 * no -0. The first word of a line decides its form: a `ramp2` with three numbers is refused by 1.
 *
 * Units and limits: as on top of this page; a text may have any length, a number any count of digits.
 * Refusals, in this order: 1 or 2 at the first faulty line, 1 before 2 on one line (bytes behind the last line are 1 at the
 * line after it; an empty text is 1 at line 1); 3, then 4, then 5, each at the lowest such grid.
 * Lent memory: `*group` is filled whole where the text is accepted, and stays as it was after a refusal.
 *
 *     static const char text[] =
 *         "group\tdock\tmetre\t13\t1\t1\t1\n"
 *         "ramp\t100\t0\t200\t1000000\n"
 *         "grid\tbasin\t0\t0\t10\t10\t3\t2\t1\t0\n";
 *     uint64_t number = bulhyemik_read_header((const uint8_t *)text, strlen(text), &group, &place);
 *     if (number == BULHYEMIK_ACCEPTED)
 *         printf("group %.24s, grids: %ld\n", (const char *)group.name, (long)group.grids);
 *     else
 *         printf("refused by %lu at %lu\n", (unsigned long)number, (unsigned long)place);
 */
uint64_t bulhyemik_read_header(const uint8_t *text, size_t text_len, bulhyemik_group *group, uint64_t *place);

/* Writes the header text of a group; a group that was read from a text gives the same bytes.
 *
 * Units and limits: as on top of this page; `*count` is in bytes, and no closing zero is written.
 * Refusals, in this order: 2, 3, 4, 5 as of bulhyemik_judge; 12 at 0 if `out` is too short, which never happens where out_len
 * is BULHYEMIK_HEADER_BYTES.
 * Lent memory: the first `*count` bytes of `out` become the text, the rest stays; after a refusal all of it stays and `*count`
 * is 0.
 *
 *     uint8_t out[BULHYEMIK_HEADER_BYTES];
 *     uint64_t count;
 *     if (bulhyemik_write_header(&group, out, sizeof out, &count, &place) == BULHYEMIK_ACCEPTED)
 *         fwrite(out, 1, (size_t)count, stdout);
 */
uint64_t bulhyemik_write_header(const bulhyemik_group *group, uint8_t *out, size_t out_len, uint64_t *count,
                                uint64_t *place);

/* Finds field `number`, from 0, of a line: all the bytes lent, parted at tabs alone.
 *
 * Units and limits: the part's ends are in bytes from the line's first; `number` has no limit.
 * Nothing is refused: past the last field both ends of the part are line_len.
 * Lent memory: `line` is read; `*part` is filled whole.
 *
 *     static const char line[] = "ramp\t100\t0\t200\t1000000";
 *     bulhyemik_part part;
 *     bulhyemik_field((const uint8_t *)line, strlen(line), 3, &part);
 *     printf("B is %.*s\n", (int)(part.to - part.from), line + part.from);
 */
void bulhyemik_field(const uint8_t *line, size_t line_len, uint64_t number, bulhyemik_part *part);

/* Looks a point up on a day: the grid of the lowest rank number among those that hold the point, and NP results, each the
 * bilinear value of the point's cell, rounded to a whole step, times the day's factor, rounded again; ties go to even. A corner
 * of weight 0 is not used: its content changes nothing.
 *
 * A grid holds a point if the latitude lies in its extent, edges included, and so does `lon`, or `lon` + 1,296,000,000, or
 * `lon` - 1,296,000,000; the first that does, in this order, is the longitude used for the cell. So a grid from 179 to 181
 * degrees holds the points from 179 to 180 degrees and those from -180 to -179.
 *
 * Units and limits: `lon` (+-648,000,000) and `lat` (+-324,000,000) are in mas, `day` is +-1,000,000; nodes and results are in
 * steps. Every node that is not the no-data mark is a value; a result is at most +-171,798,691,760, the greatest value times the
 * greatest factor of a day, 80, and a double holds it exactly. A node list may be longer than every grid's range.
 * Refusals, in this order: 2, 3, 4, 5 as of bulhyemik_judge; 6, then 9, at 0 if point or day is outside its limit; 13 at the
 * lowest grid whose range ends behind the node list; 7 at 0 if no grid holds the point; 8 at 0 if any parameter of a used corner
 * is the no-data mark.
 * Lent memory: `*group` and `nodes` are read; `*fix` is filled whole, with zeros after a refusal.
 *
 *     bulhyemik_fix fix;
 *     uint64_t number = bulhyemik_lookup(&group, nodes, 6, 5, 5, 200, &fix, &place);
 *     if (number == BULHYEMIK_ACCEPTED)
 *         printf("grid %.24s: %ld steps\n", (const char *)group.grid[fix.grid - 1].name, (long)fix.result[0]);
 */
uint64_t bulhyemik_lookup(const bulhyemik_group *group, const int32_t *nodes, size_t nodes_len,
                          int64_t lon, int64_t lat, int64_t day, bulhyemik_fix *fix, uint64_t *place);

/* Looks many points up, each on its own day: result k becomes what bulhyemik_lookup answers for point k, a refusal included. The
 * group is judged once, and a day's factor is worked out once for points in a row that share the day. No points is a valid call.
 *
 * Units and limits: as of bulhyemik_lookup; there may be any number of points.
 * Refusals, in this order: 2, 3, 4, 5 as of bulhyemik_judge; 12 at 0 if results_len is not points_len; 13 at the lowest grid
 * whose range ends behind the node list. A point that is refused, by 6, 9, 7 or 8 in this order, does not refuse the call.
 * Lent memory: `*group`, `nodes` and `points` are read; all of `results` is filled where the call is accepted, with zeros beside
 * the number of a refused point, and none of it after a refusal of the call.
 *
 *     static const bulhyemik_position points[3] = {{5, 5, 200}, {5, 5, 150}, {21, 10, 150}};
 *     bulhyemik_answer results[3];
 *     int k;
 *     if (bulhyemik_lookup_many(&group, nodes, 6, points, 3, results, 3, &place) == BULHYEMIK_ACCEPTED)
 *         for (k = 0; k < 3; k++)
 *             printf("point %d: number %d, %ld steps\n", k, (int)results[k].number, (long)results[k].fix.result[0]);
 */
uint64_t bulhyemik_lookup_many(const bulhyemik_group *group, const int32_t *nodes, size_t nodes_len,
                               const bulhyemik_position *points, size_t points_len,
                               bulhyemik_answer *results, size_t results_len, uint64_t *place);

/* Lists the grids that are chosen at one or more coordinates of an area: all points of whole mas from west to east and from
 * south to north, sides included. An area that no grid meets has an empty list, which is no refusal. An area across the 180
 * degree meridian needs two calls: one with 648,000,000 for `east`, one with -648,000,000 for `west`. What is answered are the
 * area's own longitudes, never turned ones.
 *
 * Units and limits: the sides are in mas, `west` and `east` +-648,000,000, `south` and `north` +-324,000,000.
 * Refusals, in this order: 2, 3, 4, 5 as of bulhyemik_judge; 10 at 0 if a side is outside its limit, west above east or south
 * above north.
 * Lent memory: `*group` is read; `*list` is filled whole, with zeros after a refusal.
 *
 *     bulhyemik_in_force list;
 *     int64_t k;
 *     bulhyemik_grids_in_force(&group, -648000000, 648000000, 3, 324000000, &list, &place);
 *     for (k = 0; k < list.count; k++)
 *         printf("grid %ld from %ld, %ld\n", (long)list.entry[k].grid, (long)list.entry[k].lon, (long)list.entry[k].lat);
 */
uint64_t bulhyemik_grids_in_force(const bulhyemik_group *group, int64_t west, int64_t east, int64_t south, int64_t north,
                                  bulhyemik_in_force *list, uint64_t *place);

/* Finds the hole of an area: of its coordinates that no grid holds, so that none is chosen there, the southmost, and of these
 * the westmost. An area that the grids cover whole has none, which is no refusal. Nodes play no part: where the chosen grid has
 * the no-data mark the area is covered, and a lookup is refused by 8. As of bulhyemik_grids_in_force, an area across the 180
 * degree meridian needs two calls.
 *
 * Units and limits: as of bulhyemik_grids_in_force.
 * Refusals: as of bulhyemik_grids_in_force, in the same order: 2, 3, 4, 5, then 10 at 0.
 * Lent memory: `*group` is read; `*uncovered` is filled whole, with zeros after a refusal.
 *
 *     bulhyemik_uncovered uncovered;
 *     if (bulhyemik_hole(&group, 0, 30, 3, 10, &uncovered, &place) == BULHYEMIK_ACCEPTED && uncovered.found)
 *         printf("no grid holds %ld, %ld\n", (long)uncovered.lon, (long)uncovered.lat);
 */
uint64_t bulhyemik_hole(const bulhyemik_group *group, int64_t west, int64_t east, int64_t south, int64_t north,
                        bulhyemik_uncovered *uncovered, uint64_t *place);

/* Judges a log of lookups, whoever wrote it: log_len bytes of any kind, not closed by a zero byte. One record a line, fields
 * parted by one tab, each line closed by one line feed: `fix` LON LAT DAY GRID V1 up to VNP; GRID is a name, the others are
 * numbers formed as in a header text. A line passes exactly where the lookup of its point on its day is accepted, GRID names the
 * chosen grid, and the values are its NP results. The answer is the first line that does not pass, and the first of the kinds 1
 * to 4 that holds of it: a last line without its line feed is of kind 1, a name that no grid has of kind 3. An empty log passes.
 *
 * Units and limits: LON and LAT are in mas, the values in steps. A log may have any length and a number any count of digits; a
 * LON, LAT or DAY outside its limit is of kind 2, as in a lookup.
 * Refusals, in this order: 2, 3, 4, 5 as of bulhyemik_judge; 13 at the lowest grid whose range ends behind the node list. A bad
 * line does not refuse the call.
 * Lent memory: `*group`, `nodes` and `log` are read; `*fault` is filled whole, with zeros where the log passes and after a
 * refusal.
 *
 *     static const char log[] = "fix\t5\t5\t200\tbasin\t55\nfix\t5\t5\t150\tbasin\t27\n";
 *     bulhyemik_fault fault;
 *     uint64_t number = bulhyemik_judge_log(&group, nodes, 6, (const uint8_t *)log, strlen(log), &fault, &place);
 *     if (number == BULHYEMIK_ACCEPTED && fault.kind == BULHYEMIK_LOG_SHIFT)
 *         printf("line %lu has another shift\n", (unsigned long)fault.line);
 */
uint64_t bulhyemik_judge_log(const bulhyemik_group *group, const int32_t *nodes, size_t nodes_len,
                             const uint8_t *log, size_t log_len, bulhyemik_fault *fault, uint64_t *place);

/* Writes the line of a log for one point on a day, closed by its line feed: under the same group and nodes it passes
 * bulhyemik_judge_log, as does a log of such lines.
 *
 * Units and limits: as of bulhyemik_lookup; `*count` is in bytes, and no closing zero is written.
 * Refusals, in this order: 2, 3, 4, 5, 6, 9, 13, 7, 8 as of bulhyemik_lookup; 12 at 0 if `out` is too short, which never
 * happens where out_len is BULHYEMIK_LOG_LINE_BYTES.
 * Lent memory: `*group`, `nodes` and `*position` are read; the first `*count` bytes of `out` become the line, the rest stays;
 * after a refusal all of it stays and `*count` is 0.
 *
 *     static const bulhyemik_position position = {5, 5, 150};
 *     uint8_t out[BULHYEMIK_LOG_LINE_BYTES];
 *     uint64_t count;
 *     if (bulhyemik_write_log_line(&group, nodes, 6, &position, out, sizeof out, &count, &place) == BULHYEMIK_ACCEPTED)
 *         fwrite(out, 1, (size_t)count, stdout);
 */
uint64_t bulhyemik_write_log_line(const bulhyemik_group *group, const int32_t *nodes, size_t nodes_len,
                                  const bulhyemik_position *position, uint8_t *out, size_t out_len,
                                  uint64_t *count, uint64_t *place);

/* Loads floats in units as nodes in steps: each float times 2 to the power `quantum`, to the nearest, ties to even. NaN, and
 * floats of the same bits as `flag`, become the no-data mark; with NaN for `flag` these are the NaN alone.
 *
 * Units and limits: floats are in the group's unit, nodes in steps, +-2,147,483,647; `quantum` is Q, 0 to 20.
 * Refusals, in this order: 2 at 0 if `quantum` is outside its limit; 12 at 0 if nodes_len is not floats_len; 11 at the position,
 * from 1, of the first float that is infinite or rounds beyond +-2,147,483,647 and does not become the mark. So is one that
 * rounds to -2,147,483,648: no number becomes the mark by its size.
 * Lent memory: `floats` is read; all of `nodes` is filled where the call is accepted, none of it after a refusal.
 *
 *     static const float floats[3] = {0.5f, 1.5f, -9999.0f};
 *     int32_t loaded[3];
 *     if (bulhyemik_load_nodes(floats, 3, -9999.0f, 0, loaded, 3, &place) == BULHYEMIK_ACCEPTED)
 *         printf("%ld, %ld, %s\n", (long)loaded[0], (long)loaded[1], loaded[2] == BULHYEMIK_MARK ? "no data" : "data");
 */
uint64_t bulhyemik_load_nodes(const float *floats, size_t floats_len, float flag, int64_t quantum,
                              int32_t *nodes, size_t nodes_len, uint64_t *place);

/* Turns the answer of a lookup into shifts in units for the screen: `number` is what the lookup returned, `at` its place,
 * `quantum` and `parameters` are the group's. Each of the first NP shifts is the result times 2 to the power -Q, which loses
 * nothing; a missing parameter is +0.
 *
 * Units and limits: results are in steps, shifts in the group's unit; `quantum` is Q, 0 to 20, `parameters` NP, 1 to 3, and
 * `number` 0 to 13.
 * Refusals, in this order: 2 at 0 if one of these is outside its limit; then the lookup's own, `number` at `at`.
 * Lent memory: `*fix` is read; all of `shifts` is filled, with +0 after a refusal.
 *
 *     bulhyemik_fix fix;
 *     double shifts[3];
 *     uint64_t at, number = bulhyemik_lookup(&group, nodes, 6, 5, 5, 200, &fix, &at);
 *     number = bulhyemik_screen_answer(group.quantum, group.parameters, number, at, &fix, shifts, &place);
 *     if (number == BULHYEMIK_ACCEPTED)
 *         printf("%.6f metres\n", shifts[0]);
 */
uint64_t bulhyemik_screen_answer(int64_t quantum, int64_t parameters, uint64_t number, uint64_t at,
                                 const bulhyemik_fix *fix, double shifts[BULHYEMIK_MOST_PARAMETERS], uint64_t *place);

/* Fills the screen record: the degrees of a point, each one float division by 3,600,000, and the shifts as of
 * bulhyemik_screen_answer.
 *
 * Units and limits: `lon` and `lat` are in mas and have no limit here, since the lookup has judged them; the degrees are theirs
 * as given, never turned. All else is as of bulhyemik_screen_answer.
 * Refusals: as of bulhyemik_screen_answer, in the same order.
 * Lent memory: `*fix` is read; `*screen` is filled whole, with five +0 after a refusal.
 *
 *     bulhyemik_fix fix;
 *     bulhyemik_screen screen;
 *     uint64_t at, number = bulhyemik_lookup(&group, nodes, 6, 21, 10, 200, &fix, &at);
 *     number = bulhyemik_screen_record(21, 10, group.quantum, group.parameters, number, at, &fix, &screen, &place);
 *     if (number == BULHYEMIK_NO_GRID)
 *         printf("no grid holds the point: %.1f, %.1f\n", screen.longitude, screen.latitude);
 */
uint64_t bulhyemik_screen_record(int64_t lon, int64_t lat, int64_t quantum, int64_t parameters, uint64_t number, uint64_t at,
                                 const bulhyemik_fix *fix, bulhyemik_screen *screen, uint64_t *place);

#ifdef __cplusplus
}
#endif

#endif
