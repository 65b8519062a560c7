/* The reader of a header text: one pass over its bytes. */
#include "cursor.h"
#include "plain.h"

/* Takes a name and the tab behind it. */
static void name(cursor *c, uint8_t *bytes, int64_t *length)
{
    int64_t n = 0;
    while (c->at < c->end && plain_name_byte[*c->at] && n < BULHYEMIK_NAME_BYTES)
        bytes[n++] = *c->at++;
    *length = n;
    c->good &= n > 0;
    word(c, "\t");
}

static void group_line(cursor *c, bulhyemik_group *group)
{
    word(c, "group\t");
    name(c, group->name, &group->name_length);
    group->unit = c->at < c->end && *c->at == 'm';
    word(c, group->unit ? "metre\t" : "arc-second\t");
    group->quantum = number(c, '\t');
    group->parameters = number(c, '\t');
    group->functions = number(c, '\t');
    group->grids = number(c, '\n');
}

/* The numbers of every kind stand in the order of its line. */
static void function_line(cursor *c, bulhyemik_function *f)
{
    static const char *const begin[3] = {"ramp\t", "step\t", "ramp2\t"};
    int64_t numbers[4] = {0, 0, 0, 0};
    int k, last;
    if (c->at < c->end && *c->at == 's')
        f->kind = BULHYEMIK_STEP;
    else if (c->end - c->at > 4 && c->at[4] == '2')
        f->kind = BULHYEMIK_RAMP2;
    else
        f->kind = BULHYEMIK_RAMP;
    word(c, begin[f->kind]);
    last = f->kind == BULHYEMIK_STEP ? 2 : 3;
    for (k = 0; k <= last; k++)
        numbers[k] = number(c, k == last ? '\n' : '\t');
    memcpy(&f->numbers, numbers, sizeof numbers);
}

static void grid_line(cursor *c, bulhyemik_grid *g)
{
    word(c, "grid\t");
    name(c, g->name, &g->name_length);
    g->lon = number(c, '\t');
    g->lat = number(c, '\t');
    g->dlon = number(c, '\t');
    g->dlat = number(c, '\t');
    g->ni = number(c, '\t');
    g->nj = number(c, '\t');
    g->rank = number(c, '\t');
    g->start = number(c, '\n');
}

uint64_t plain_read_header(const uint8_t *text, size_t text_len, bulhyemik_group *group, uint64_t *place)
{
    bulhyemik_group read;
    plain_sides sides[BULHYEMIK_MOST_GRIDS];
    cursor c;
    int64_t line = 1, k;
    uint64_t number;
    if (text_len == 0)
        return refused(1, 1, place);
    c.at = text, c.end = text + text_len, c.good = 1;
    memset(&read, 0, sizeof read);
    group_line(&c, &read);
    if (!c.good || !plain_head_within(&read))
        return refused(c.good ? 2 : 1, line, place);
    for (k = 0; k < read.functions; k++) {
        line++;
        function_line(&c, &read.function[k]);
        if (!c.good || !plain_function_within(&read.function[k]))
            return refused(c.good ? 2 : 1, line, place);
    }
    for (k = 0; k < read.grids; k++) {
        line++;
        grid_line(&c, &read.grid[k]);
        if (!c.good || !plain_grid_within(&read.grid[k]))
            return refused(c.good ? 2 : 1, line, place);
    }
    if (c.at < c.end)
        return refused(1, line + 1, place);
    number = plain_sound(&read, sides, place);
    if (number == 0)
        *group = read;
    return number;
}
