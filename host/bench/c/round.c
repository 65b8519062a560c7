/* The rounding alone, over lists. */
#include "plain.h"

/* n / d to the nearest, a tie to the even one, 0 for d = 0, and no branch else. The remainder is held against what it lacks of
 * d, since twice the remainder may not fit 64 bits. */
static uint64_t nearest_even(uint64_t n, uint64_t d)
{
    uint64_t q, r;
    if (d == 0)
        return 0;
    q = n / d, r = n % d;
    return q + (r + (q & 1) > d - r);
}

void plain_nearest_even(const uint64_t *numerators, size_t numerators_len, const uint64_t *divisors, size_t divisors_len,
                        uint64_t *out, size_t out_len)
{
    size_t k;
    for (k = 0; k < numerators_len && k < divisors_len && k < out_len; k++)
        out[k] = nearest_even(numerators[k], divisors[k]);
}

/* C99 has no number of 128 bits, gcc and clang have. */
__extension__ typedef unsigned __int128 pair;

/* The low word of n / d for an n of two words, 0 for d = 0. The low words have the remainder, which is less than d. */
static uint64_t nearest_pair(uint64_t high, uint64_t low, uint64_t d)
{
    uint64_t q, r;
    if (d == 0)
        return 0;
    q = (uint64_t)(((pair)high << 64 | low) / d), r = low - q * d;
    return q + (r + (q & 1) > d - r);
}

void plain_nearest_pairs(const uint64_t *highs, size_t highs_len, const uint64_t *lows, size_t lows_len,
                         const uint64_t *divisors, size_t divisors_len, uint64_t *out, size_t out_len)
{
    size_t k;
    for (k = 0; k < highs_len && k < lows_len && k < divisors_len && k < out_len; k++)
        out[k] = nearest_pair(highs[k], lows[k], divisors[k]);
}
