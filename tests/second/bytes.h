/* Byte strings of the second program: the numbers in them; strings joined, cut and changed. */
#ifndef BYTES_H
#define BYTES_H

#include <stdint.h>
#include "words.h"

static const struct bytes nothing = { (unsigned char *)"", 0 };

static inline uint64_t get(const unsigned char *at, int count)
{
    uint64_t value = 0;
    for (int i = 0; i < count; i++)
        value = value << 8 | at[i];
    return value;
}

static inline void put(unsigned char *at, int count, uint64_t value)
{
    while (count > 0)
        at[--count] = (unsigned char)value, value >>= 8;
}

static inline struct bytes room_for(uint64_t len)
{
    struct bytes b = { malloc(len + 1), len };
    if (!b.at)
        fail("no memory", "room_for");
    return b;
}

static inline struct bytes joined(struct bytes a, struct bytes b)
{
    struct bytes both = room_for(a.len + b.len);
    memcpy(both.at, a.at, a.len);
    memcpy(both.at + a.len, b.at, b.len);
    return both;
}

/* A copy with some bits of one byte changed. */
static inline struct bytes changed(struct bytes b, size_t at, unsigned by)
{
    struct bytes c = joined(b, nothing);
    c.at[at] ^= (unsigned char)by;
    return c;
}

/* The first so many bytes. */
static inline struct bytes cut(struct bytes b, size_t len)
{
    b.len = len;
    return b;
}

#endif
