/* A text that is read in one pass: words and numbers. */
#ifndef CURSOR_H
#define CURSOR_H

#include <stdint.h>
#include <string.h>

/* A number is cut here, beyond every limit and every result. */
#define CUT 100000000000000000

/* What is left of the text, and whether every field so far was well formed. */
typedef struct {
    const uint8_t *at, *end;
    int good;
} cursor;

/* Takes these bytes. */
static inline void word(cursor *c, const char *bytes)
{
    size_t length = strlen(bytes);
    if (c->good && (size_t)(c->end - c->at) >= length && memcmp(c->at, bytes, length) == 0)
        c->at += length;
    else
        c->good = 0;
}

/* Takes a number and the byte behind it. */
static inline int64_t number(cursor *c, uint8_t behind)
{
    const uint8_t *at = c->at, *first;
    int64_t size = 0;
    int below = at < c->end && *at == '-';
    at += below;
    for (first = at; at < c->end && (uint8_t)(*at - '0') < 10; at++) {
        size = size * 10 + (*at - '0');
        if (size > CUT)
            size = CUT;
    }
    c->good &= at > first && (*first != '0' || (at == first + 1 && !below)) && at < c->end && *at == behind;
    c->at = at + (at < c->end);
    return below ? -size : size;
}

#endif
