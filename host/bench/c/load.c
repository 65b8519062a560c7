/* Loading floats as nodes by the processor's own rounding, which has to be to nearest. */
#include "plain.h"

#include <string.h>

/* Floats that are looked at before it is asked whether one was beyond the limit. */
#define BLOCK 4096

static uint32_t bits(float x)
{
    uint32_t b;
    memcpy(&b, &x, sizeof b);
    return b;
}

/* The low word of a double's bits. */
static uint32_t low_word(double x)
{
    uint64_t b;
    memcpy(&b, &x, sizeof b);
    return (uint32_t)b;
}

/* Whether a float of these bits is neither NaN nor the flag, and above the limit in size. Sizes of floats rise as their bits. */
static int beyond(uint32_t b, uint32_t flag, uint32_t limit)
{
    uint32_t size = b & 0x7fffffff;
    return (size > limit) & (size <= 0x7f800000) & (b != flag);
}

/* The first position, from 1, of a float beyond the limit, or 0. */
static size_t first_beyond(const float *floats, size_t count, uint32_t flag, uint32_t limit)
{
    size_t from, to, k;
    for (from = 0; from < count; from = to) {
        int any = 0;
        to = count - from < BLOCK ? count : from + BLOCK;
        for (k = from; k < to; k++)
            any |= beyond(bits(floats[k]), flag, limit);
        for (k = from; any && k < to; k++)
            if (beyond(bits(floats[k]), flag, limit))
                return k + 1;
    }
    return 0;
}

uint64_t plain_load_nodes(const float *floats, size_t floats_len, float flag, int64_t quantum,
                          int32_t *nodes, size_t nodes_len, uint64_t *place)
{
    /* Between 2^52 and 2^53 doubles are whole numbers, so that adding this one rounds. */
    const double whole = 6755399441055744.0;
    uint32_t flagged = bits(flag);
    float steps;
    size_t k;
    if (!between(quantum, 0, 20))
        return refused(2, 0, place);
    if (floats_len != nodes_len)
        return refused(12, 0, place);
    steps = (float)(1 << quantum);
    /* the greatest float below 2^31; above it none rounds to a node value. Its quotient is a float too */
    k = first_beyond(floats, floats_len, flagged, bits(2147483520.0f / steps));
    if (k != 0)
        return refused(11, (int64_t)k, place);
    for (k = 0; k < floats_len; k++) {
        uint32_t b = bits(floats[k]), node = low_word((double)floats[k] * steps + whole);
        uint32_t marked = -(uint32_t)(((b & 0x7fffffff) > 0x7f800000) | (b == flagged));
        nodes[k] = (int32_t)((node & ~marked) | ((uint32_t)BULHYEMIK_MARK & marked));
    }
    return refused(0, 0, place);
}
