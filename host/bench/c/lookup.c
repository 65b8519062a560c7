/* The lookup of a point on a day, and lookups in a group that is judged once. */
#include "plain.h"

#include <string.h>

/* n / d for d above 0, to the nearest, a tie to the even one, without a branch. */
static int64_t nearest(int64_t n, int64_t d)
{
    int64_t q = n / d - (n % d < 0), r = n - q * d;
    return q + (2 * r + (q & 1) > d);
}

/* C99 has no number of 128 bits, gcc and clang have. */
__extension__ typedef __int128 wide;

/* The same of a sum that may not fit 64 bits; the quotient does, and so does the remainder, which the low words have. */
static int64_t nearest_wide(wide n, int64_t d)
{
    int64_t q = (int64_t)(n / d), r = (int64_t)((uint64_t)n - (uint64_t)q * (uint64_t)d);
    if (r < 0) {
        q--;
        r += d;
    }
    return q + (2 * r + (q & 1) > d);
}

/* With weights that add to at most this, every weighted sum of node values fits 64 bits. Fine grids are known by this one number,
 * without a look at the corners; on others the sum has 128 bits, whatever the corners hold. */
#define ONE_WORD ((int64_t)1 << 32)

static int64_t ramp_factor(const bulhyemik_ramp *r, int64_t day)
{
    if (day >= r->b)
        return r->s1;
    if (day <= r->a)
        return r->s0;
    return nearest(r->s0 * (r->b - day) + r->s1 * (day - r->a), r->b - r->a);
}

static int64_t step_factor(const bulhyemik_step *s, int64_t day)
{
    return s->mult * ((day >= s->event) - (s->reference >= s->event));
}

/* A day, moved to the end beside it where it is not between the ends of a ramp2. */
static int64_t between_ends(const bulhyemik_ramp2 *r, int64_t day)
{
    return day < r->start ? r->start : day > r->end ? r->end : day;
}

static int64_t ramp2_factor(const bulhyemik_ramp2 *r, int64_t day)
{
    return nearest(r->mult * (between_ends(r, day) - between_ends(r, r->reference)), r->end - r->start);
}

/* The sum of the functions' factors on a day. */
static int64_t factor(const bulhyemik_group *group, int64_t day)
{
    int64_t sum = 0, k;
    if (group->functions == 0)
        return 1000000;
    for (k = 0; k < group->functions; k++) {
        const bulhyemik_function *f = &group->function[k];
        if (f->kind == BULHYEMIK_RAMP)
            sum += ramp_factor(&f->numbers.ramp, day);
        else if (f->kind == BULHYEMIK_STEP)
            sum += step_factor(&f->numbers.step, day);
        else
            sum += ramp2_factor(&f->numbers.ramp2, day);
    }
    return sum;
}

/* The cell's index along an axis, and the distance from its lower node. */
static int64_t cell(int64_t from, int64_t size, int64_t count, int64_t at, int64_t *away)
{
    uint32_t distance = (uint32_t)(at < from ? from - at : at - from), index = distance / (uint32_t)size;
    if (index > (uint32_t)count - 2)
        index = (uint32_t)count - 2;
    *away = (int64_t)distance - (int64_t)index * size;
    return index;
}

/* The results in a grid that holds the point, with the day's factor: 0 or 8. */
static uint64_t results_in(const bulhyemik_grid *g, int64_t np, const int32_t *nodes, int64_t lon, int64_t lat, int64_t times,
                           int64_t *result)
{
    int64_t sx = g->dlon < 0 ? -g->dlon : g->dlon, sy = g->dlat < 0 ? -g->dlat : g->dlat, fx, fy;
    int64_t i = cell(g->lon, sx, g->ni, lon, &fx), j = cell(g->lat, sy, g->nj, lat, &fy), row = g->ni * np, c, p;
    const int32_t *first = nodes + g->start + (j * g->ni + i) * np;
    const int32_t *corner[4];
    int64_t weight[4], total = sx * sy, sum[BULHYEMIK_MOST_PARAMETERS] = {0, 0, 0};
    wide wide_sum[BULHYEMIK_MOST_PARAMETERS] = {0, 0, 0};
    int mark = 0;
    corner[0] = first, weight[0] = (sx - fx) * (sy - fy);
    corner[1] = first + np, weight[1] = fx * (sy - fy);
    corner[2] = first + row, weight[2] = (sx - fx) * fy;
    corner[3] = first + row + np, weight[3] = fx * fy;
    for (c = 0; c < 4; c++) {
        if (weight[c] == 0)
            continue;
        for (p = 0; p < np; p++) {
            int32_t value = corner[c][p];
            mark |= value == BULHYEMIK_MARK;
            if (total <= ONE_WORD)
                sum[p] += weight[c] * value;
            else
                wide_sum[p] += (wide)weight[c] * value;
        }
    }
    if (mark)
        return 8;
    for (p = 0; p < np; p++) {
        int64_t value = total <= ONE_WORD ? nearest(sum[p], total) : nearest_wide(wide_sum[p], total);
        result[p] = nearest(value * times, 1000000);
    }
    return 0;
}

/* 6, 9 or 0. */
static uint64_t admitted(int64_t lon, int64_t lat, int64_t day)
{
    if (!within(lon, LONGITUDE) || !within(lat, LATITUDE))
        return 6;
    return within(day, DAY) ? 0 : 9;
}

static int holds(const plain_sides *s, int64_t lon, int64_t lat)
{
    return s->west <= lon && lon <= s->east && s->south <= lat && lat <= s->north;
}

/* For one point: the best grid that holds it, from 0, or -1. Leaves the longitude at which the grid has it. */
static int64_t best_holder(const bulhyemik_group *group, const plain_sides *sides, int64_t *lon, int64_t lat)
{
    int64_t chosen = -1, best = INT64_MAX, at = *lon, k;
    for (k = 0; k < group->grids; k++) {
        int64_t rank = group->grid[k].rank, used = at;
        if (at < sides[k].west)
            used = at + TURN;
        else if (at > sides[k].east)
            used = at - TURN;
        if (rank < best && holds(&sides[k], used, lat)) {
            chosen = k;
            best = rank;
            *lon = used;
        }
    }
    return chosen;
}

/* For many points: the same by the pieces in the order of ranks. Grids of one rank hold no common point, so that the first piece
 * that holds it is the best grid's. */
static int64_t first_holder(const plain_lookups *ready, int64_t *lon, int64_t lat)
{
    int64_t k;
    for (k = 0; k < ready->count; k++)
        if (holds(&ready->piece[k], *lon, lat)) {
            *lon += ready->turn[k];
            return ready->grid[k];
        }
    return -1;
}

/* The results in the grid that was chosen for the point, at the grid's longitude, with the day's factor: 0, 7 or 8, beside which
 * the fix is zeros. */
static uint64_t found(const bulhyemik_group *group, int64_t chosen, const int32_t *nodes, int64_t lon, int64_t lat,
                      int64_t times, bulhyemik_fix *fix)
{
    uint64_t number;
    memset(fix, 0, sizeof *fix);
    if (chosen < 0)
        return 7;
    number = results_in(&group->grid[chosen], group->parameters, nodes, lon, lat, times, fix->result);
    if (number == 0)
        fix->grid = chosen + 1;
    return number;
}

/* The lowest grid whose nodes end behind the list, from 1, or 0. */
static int64_t few_nodes(const bulhyemik_group *group, size_t nodes_len)
{
    int64_t k;
    for (k = 0; k < group->grids; k++)
        if ((size_t)plain_end(&group->grid[k], group->parameters) > nodes_len)
            return k + 1;
    return 0;
}

uint64_t plain_lookup(const bulhyemik_group *group, const int32_t *nodes, size_t nodes_len,
                      int64_t lon, int64_t lat, int64_t day, bulhyemik_fix *fix, uint64_t *place)
{
    plain_sides sides[BULHYEMIK_MOST_GRIDS];
    uint64_t number = plain_judged(group, sides, place);
    int64_t few, chosen;
    memset(fix, 0, sizeof *fix);
    if (number != 0)
        return number;
    number = admitted(lon, lat, day);
    if (number != 0)
        return refused(number, 0, place);
    few = few_nodes(group, nodes_len);
    if (few != 0)
        return refused(13, few, place);
    chosen = best_holder(group, sides, &lon, lat);
    return refused(found(group, chosen, nodes, lon, lat, factor(group, day), fix), 0, place);
}

uint64_t plain_ready(plain_lookups *ready, const bulhyemik_group *group, const plain_sides *sides,
                     const int32_t *nodes, size_t nodes_len, uint64_t *place)
{
    int64_t order[BULHYEMIK_MOST_GRIDS], few = few_nodes(group, nodes_len), k, from;
    if (few != 0)
        return refused(13, few, place);
    plain_order_by_rank(group, order);
    for (k = 0, from = 0; k < group->grids; k++) {
        ready->count = from + plain_pieces(&sides[order[k]], ready->piece + from, ready->turn + from);
        for (; from < ready->count; from++)
            ready->grid[from] = order[k];
    }
    ready->group = group;
    ready->nodes = nodes;
    ready->day = 0;
    ready->times = factor(group, 0);
    return refused(0, 0, place);
}

/* One lookup with the factor `times` of the last day, which is worked out anew only where the day changes. */
static inline uint64_t fix_on(const plain_lookups *ready, const bulhyemik_position *at, int64_t *day, int64_t *times,
                              bulhyemik_fix *fix)
{
    const bulhyemik_group *group = ready->group;
    uint64_t number = admitted(at->lon, at->lat, at->day);
    int64_t lon = at->lon, chosen;
    if (number != 0) {
        memset(fix, 0, sizeof *fix);
        return number;
    }
    if (at->day != *day) {
        *day = at->day;
        *times = factor(group, at->day);
    }
    chosen = first_holder(ready, &lon, at->lat);
    return found(group, chosen, ready->nodes, lon, at->lat, *times, fix);
}

uint64_t plain_fix(plain_lookups *ready, const bulhyemik_position *at, bulhyemik_fix *fix)
{
    return fix_on(ready, at, &ready->day, &ready->times, fix);
}

uint64_t plain_lookup_many(const bulhyemik_group *group, const int32_t *nodes, size_t nodes_len,
                           const bulhyemik_position *points, size_t points_len,
                           bulhyemik_answer *results, size_t results_len, uint64_t *place)
{
    plain_sides sides[BULHYEMIK_MOST_GRIDS];
    plain_lookups ready;
    uint64_t number = plain_judged(group, sides, place);
    int64_t day, times;
    size_t k;
    if (number != 0)
        return number;
    if (results_len != points_len)
        return refused(12, 0, place);
    number = plain_ready(&ready, group, sides, nodes, nodes_len, place);
    if (number != 0)
        return number;
    day = ready.day, times = ready.times;
    for (k = 0; k < points_len; k++) {
        results[k].place = 0;
        results[k].number = fix_on(&ready, &points[k], &day, &times, &results[k].fix);
    }
    return refused(0, 0, place);
}
