/* The judge: limits and refusals 2 to 5. */
#include "plain.h"

#include <string.h>

/* 1 for the bytes of a name. */
const uint8_t plain_name_byte[256] = {
    ['-'] = 1, ['_'] = 1,
    ['0'] = 1, ['1'] = 1, ['2'] = 1, ['3'] = 1, ['4'] = 1, ['5'] = 1, ['6'] = 1, ['7'] = 1, ['8'] = 1, ['9'] = 1,
    ['A'] = 1, ['B'] = 1, ['C'] = 1, ['D'] = 1, ['E'] = 1, ['F'] = 1, ['G'] = 1, ['H'] = 1, ['I'] = 1, ['J'] = 1, ['K'] = 1,
    ['L'] = 1, ['M'] = 1, ['N'] = 1, ['O'] = 1, ['P'] = 1, ['Q'] = 1, ['R'] = 1, ['S'] = 1, ['T'] = 1, ['U'] = 1, ['V'] = 1,
    ['W'] = 1, ['X'] = 1, ['Y'] = 1, ['Z'] = 1,
    ['a'] = 1, ['b'] = 1, ['c'] = 1, ['d'] = 1, ['e'] = 1, ['f'] = 1, ['g'] = 1, ['h'] = 1, ['i'] = 1, ['j'] = 1, ['k'] = 1,
    ['l'] = 1, ['m'] = 1, ['n'] = 1, ['o'] = 1, ['p'] = 1, ['q'] = 1, ['r'] = 1, ['s'] = 1, ['t'] = 1, ['u'] = 1, ['v'] = 1,
    ['w'] = 1, ['x'] = 1, ['y'] = 1, ['z'] = 1,
};

static int name_within(const uint8_t *name, int64_t length)
{
    int64_t k;
    if (!between(length, 1, BULHYEMIK_NAME_BYTES))
        return 0;
    for (k = 0; k < length; k++)
        if (!plain_name_byte[name[k]])
            return 0;
    for (; k < BULHYEMIK_NAME_BYTES; k++)
        if (name[k] != 0)
            return 0;
    return 1;
}

/* Whether `bytes` bytes, a whole number of words, are all zero. */
static int zero(const void *from, size_t bytes)
{
    const int64_t *words = from;
    int64_t all = 0;
    size_t k;
    for (k = 0; k < bytes / sizeof *words; k++)
        all |= words[k];
    return all == 0;
}

int plain_head_within(const bulhyemik_group *group)
{
    return between(group->quantum, 0, 20) && between(group->parameters, 1, BULHYEMIK_MOST_PARAMETERS) &&
           between(group->functions, 0, BULHYEMIK_MOST_FUNCTIONS) && between(group->grids, 1, BULHYEMIK_MOST_GRIDS);
}

int plain_function_within(const bulhyemik_function *f)
{
    const bulhyemik_ramp *r = &f->numbers.ramp;
    const bulhyemik_step *s = &f->numbers.step;
    const bulhyemik_ramp2 *r2 = &f->numbers.ramp2;
    switch (f->kind) {
    case BULHYEMIK_RAMP:
        return within(r->a, DAY) && within(r->b, DAY) && within(r->s0, FACTOR) && within(r->s1, FACTOR) && r->a <= r->b;
    case BULHYEMIK_STEP:
        return within(s->event, DAY) && within(s->reference, DAY) && within(s->mult, FACTOR) && s->unused == 0;
    case BULHYEMIK_RAMP2:
        return within(r2->start, DAY) && within(r2->end, DAY) && within(r2->reference, DAY) && within(r2->mult, FACTOR) &&
               r2->start < r2->end;
    default:
        return 0;
    }
}

int plain_grid_within(const bulhyemik_grid *g)
{
    return within(g->lon, TURN) && within(g->lat, LATITUDE) && within(g->dlon, SPACING) && g->dlon != 0 &&
           within(g->dlat, SPACING) && g->dlat != 0 && between(g->ni, 2, 16384) && between(g->nj, 2, 16384) &&
           between(g->rank, 1, 1000) && between(g->start, 0, NODE_LIST - 1);
}

/* Refusal 2. */
static uint64_t limits(const bulhyemik_group *group, uint64_t *place)
{
    int64_t k;
    if (!name_within(group->name, group->name_length) || !between(group->unit, 0, 1) || !plain_head_within(group) ||
        !zero(group->function + group->functions,
              (size_t)(BULHYEMIK_MOST_FUNCTIONS - group->functions) * sizeof(bulhyemik_function)) ||
        !zero(group->grid + group->grids, (size_t)(BULHYEMIK_MOST_GRIDS - group->grids) * sizeof(bulhyemik_grid)))
        return refused(2, 1, place);
    for (k = 0; k < group->functions; k++)
        if (!plain_function_within(&group->function[k]))
            return refused(2, 2 + k, place);
    for (k = 0; k < group->grids; k++)
        if (!name_within(group->grid[k].name, group->grid[k].name_length) || !plain_grid_within(&group->grid[k]))
            return refused(2, 2 + group->functions + k, place);
    return refused(0, 0, place);
}

/* Refusal 3: the first eight bytes of each name side by side, since most names differ there. */
static uint64_t names(const bulhyemik_group *group, uint64_t *place)
{
    uint64_t first[BULHYEMIK_MOST_GRIDS];
    int64_t j, k;
    for (k = 0; k < group->grids; k++) {
        memcpy(&first[k], group->grid[k].name, sizeof first[k]);
        for (j = 0; j < k; j++)
            if (first[j] == first[k] && memcmp(group->grid[j].name, group->grid[k].name, BULHYEMIK_NAME_BYTES) == 0)
                return refused(3, k + 1, place);
    }
    return refused(0, 0, place);
}

uint64_t plain_sound(const bulhyemik_group *group, plain_sides *sides, uint64_t *place)
{
    int64_t ranks[BULHYEMIK_MOST_GRIDS], j, k;
    uint64_t number = names(group, place);
    if (number != 0)
        return number;
    for (k = 0; k < group->grids; k++) {
        const bulhyemik_grid *g = &group->grid[k];
        int64_t lon = g->lon + (g->ni - 1) * g->dlon, lat = g->lat + (g->nj - 1) * g->dlat;
        plain_sides *s = &sides[k];
        s->west = lon < g->lon ? lon : g->lon;
        s->east = lon < g->lon ? g->lon : lon;
        s->south = lat < g->lat ? lat : g->lat;
        s->north = lat < g->lat ? g->lat : lat;
        if (!within(lon, TURN) || !within(lat, LATITUDE) || s->east - s->west > TURN || plain_end(g, group->parameters) > NODE_LIST)
            return refused(4, k + 1, place);
        ranks[k] = g->rank;
    }
    for (k = 1; k < group->grids; k++)
        for (j = 0; j < k; j++)
            if (ranks[j] == ranks[k] && share(&sides[j], &sides[k]))
                return refused(5, k + 1, place);
    return refused(0, 0, place);
}

uint64_t plain_judged(const bulhyemik_group *group, plain_sides *sides, uint64_t *place)
{
    uint64_t number = limits(group, place);
    return number != 0 ? number : plain_sound(group, sides, place);
}

uint64_t plain_judge(const bulhyemik_group *group, uint64_t *place)
{
    plain_sides sides[BULHYEMIK_MOST_GRIDS];
    return plain_judged(group, sides, place);
}
