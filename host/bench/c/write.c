/* The writer of a header text. */
#include "plain.h"

#include <string.h>

/* No accepted group has a longer header text. */
#define LONGEST 6732

static uint8_t *put(uint8_t *at, const void *bytes, size_t length)
{
    memcpy(at, bytes, length);
    return at + length;
}

/* A tab and a number of an accepted group, whose size is below 2 to the power 31. */
static uint8_t *put_number(uint8_t *at, int64_t number)
{
    uint8_t digits[10];
    uint32_t size = (uint32_t)(number < 0 ? -number : number);
    size_t first = sizeof digits;
    do {
        digits[--first] = (uint8_t)('0' + size % 10);
        size /= 10;
    } while (size != 0);
    *at++ = '\t';
    if (number < 0)
        *at++ = '-';
    return put(at, digits + first, sizeof digits - first);
}

static uint8_t *put_numbers(uint8_t *at, const int64_t *numbers, int64_t count)
{
    int64_t k;
    for (k = 0; k < count; k++)
        at = put_number(at, numbers[k]);
    *at++ = '\n';
    return at;
}

/* The numbers of every kind stand in the order of its line. */
static uint8_t *put_function(uint8_t *at, const bulhyemik_function *f)
{
    static const char *const word[3] = {"ramp", "step", "ramp2"};
    int64_t numbers[4];
    memcpy(numbers, &f->numbers, sizeof numbers);
    return put_numbers(put(at, word[f->kind], strlen(word[f->kind])), numbers, f->kind == BULHYEMIK_STEP ? 3 : 4);
}

/* Writes the text of an accepted group and answers its length. */
static size_t put_group(uint8_t *text, const bulhyemik_group *group)
{
    uint8_t *at = put(text, "group\t", 6);
    int64_t k;
    at = put(at, group->name, (size_t)group->name_length);
    at = group->unit ? put(at, "\tmetre", 6) : put(at, "\tarc-second", 11);
    at = put_numbers(at, (const int64_t[]){group->quantum, group->parameters, group->functions, group->grids}, 4);
    for (k = 0; k < group->functions; k++)
        at = put_function(at, &group->function[k]);
    for (k = 0; k < group->grids; k++) {
        const bulhyemik_grid *g = &group->grid[k];
        const int64_t numbers[8] = {g->lon, g->lat, g->dlon, g->dlat, g->ni, g->nj, g->rank, g->start};
        at = put(put(at, "grid\t", 5), g->name, (size_t)g->name_length);
        at = put_numbers(at, numbers, 8);
    }
    return (size_t)(at - text);
}

uint64_t plain_write_header(const bulhyemik_group *group, uint8_t *out, size_t out_len, uint64_t *count, uint64_t *place)
{
    uint64_t number = plain_judge(group, place);
    *count = 0;
    if (number != 0)
        return number;
    if (out_len >= LONGEST) {
        *count = put_group(out, group);
    } else {
        uint8_t text[LONGEST];
        size_t length = put_group(text, group);
        if (length > out_len)
            return refused(12, 0, place);
        memcpy(out, text, length);
        *count = length;
    }
    return 0;
}
