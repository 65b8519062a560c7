/* The judge of a log: one pass over its bytes, in a group that is judged once. */
#include "cursor.h"
#include "plain.h"

/* A line of the form: its position, where its name begins, how long it is, and its values. */
typedef struct {
    bulhyemik_position at;
    const uint8_t *name;
    int64_t name_length, value[BULHYEMIK_MOST_PARAMETERS];
} said;

/* Takes a line of so many values. */
static void line(cursor *c, int64_t parameters, said *s)
{
    int64_t p;
    word(c, "fix\t");
    s->at.lon = number(c, '\t');
    s->at.lat = number(c, '\t');
    s->at.day = number(c, '\t');
    s->name = c->at;
    while (c->at < c->end && plain_name_byte[*c->at] && c->at - s->name < BULHYEMIK_NAME_BYTES)
        c->at++;
    s->name_length = c->at - s->name;
    c->good &= s->name_length > 0;
    word(c, "\t");
    for (p = 0; p < parameters; p++)
        s->value[p] = number(c, p + 1 < parameters ? '\t' : '\n');
}

/* The kind of the next line's fault, or 0. */
static uint64_t kind(plain_lookups *ready, cursor *c)
{
    const bulhyemik_grid *grid;
    bulhyemik_fix fix;
    said s;
    int64_t p;
    line(c, ready->group->parameters, &s);
    if (!c->good)
        return BULHYEMIK_LOG_FORM;
    if (plain_fix(ready, &s.at, &fix) != 0)
        return BULHYEMIK_LOG_REFUSED;
    grid = &ready->group->grid[fix.grid - 1];
    if (s.name_length != grid->name_length || memcmp(s.name, grid->name, (size_t)s.name_length) != 0)
        return BULHYEMIK_LOG_GRID;
    for (p = 0; p < ready->group->parameters; p++)
        if (s.value[p] != fix.result[p])
            return BULHYEMIK_LOG_SHIFT;
    return 0;
}

uint64_t plain_judge_log(const bulhyemik_group *group, const int32_t *nodes, size_t nodes_len,
                         const uint8_t *log, size_t log_len, bulhyemik_fault *fault, uint64_t *place)
{
    plain_sides sides[BULHYEMIK_MOST_GRIDS];
    plain_lookups ready;
    cursor c;
    uint64_t number = plain_judged(group, sides, place), lines = 0;
    memset(fault, 0, sizeof *fault);
    if (number == 0)
        number = plain_ready(&ready, group, sides, nodes, nodes_len, place);
    if (number != 0)
        return number;
    c.at = log, c.end = log + log_len, c.good = 1;
    while (c.at < c.end && fault->kind == 0) {
        lines++;
        fault->kind = kind(&ready, &c);
    }
    if (fault->kind != 0)
        fault->line = lines;
    return 0;
}
