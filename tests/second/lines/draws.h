/*
 * What random calls are drawn with: numbers, lengths that often lie at a boundary, damage, and which flaws a call has.
 * Nothing is freed: a part of the calls is short.
 */
#ifndef DRAWS_H
#define DRAWS_H

#include "page_parts.h"

/* What each line is named. */
#define MADE "made"

static inline uint64_t below(uint64_t n)
{
    byte();
    return (state >> 16) % n;
}

static inline int one_in(unsigned n)
{
    return below(n) == 0;
}

#define ONE_OF(list) (list)[below(COUNT(list))]

/*
 * Flaws are a set of numbers of document 01, each for what would give it if no other were there: often one of those
 * that the call can give, else none, two, or any.
 */
static inline unsigned any_flaws(const unsigned char *numbers, size_t count)
{
    unsigned set = 0;
    switch (below(8)) {
    case 0: case 1:
        return 0;
    case 2:
        for (size_t i = 0; i < count; i++)
            set |= (unsigned)one_in(2) << numbers[i];
        return set;
    case 3:
        set = 1u << numbers[below(count)];
    }
    return set | 1u << numbers[below(count)];
}

#define FLAWS(...) any_flaws((const unsigned char[]){ __VA_ARGS__ }, sizeof((const unsigned char[]){ __VA_ARGS__ }))
#define HAS(flaws, number) ((flaws) >> (number) & 1)

/* Lengths of associated data and of text; where a maximum is passed it is seldom the text's, which is long. */
struct lengths {
    size_t data, text;
};

static inline size_t any_length(void)
{
    static const size_t edges[] = { 0, 1, 2, 13, 14, 15, 16, 17, 29, 30, 31, 32, 33, 47, 48, 49, 63, 64, 65, 255, 256, 257 };
    return one_in(2) ? ONE_OF(edges) : below(100);
}

static inline struct lengths any_lengths(size_t most, int past)
{
    static const size_t longer[] = { 1023, 1024, 1025, 1040, 2047, 2048, 4095, 4096, 4097 }, longest[] = { 65519, 65535, 65536, 65537 };
    struct lengths l = { any_length(), any_length() };
    if (one_in(16))
        l.data = most - below(2);
    if (one_in(4000))
        l.text = PLAIN_MAX - below(2);
    else if (one_in(50))
        l.text = one_in(8) ? ONE_OF(longest) : ONE_OF(longer);
    if (past && one_in(300))
        l.text = PLAIN_MAX + 1 + below(2);
    else if (past)
        l.data = most + 1 + (one_in(2) ? 0 : below(300));
    return l;
}

/* A length beside the right one, of something else, or any. */
static inline size_t another_length(size_t right)
{
    static const size_t edges[] = { 0, 1, 8, 11, 12, 13, 15, 16, 17, 24, 31, 32, 33, 39, 40, 41, 48, 64, 80 };
    size_t beside[] = { right ? right - 1 : 2, right + 1, ONE_OF(edges), below(100) }, len = ONE_OF(beside);
    return len == right ? right + 1 : len;
}

/* Room for a result: just enough or more; or where flawed, one byte short or more. */
static inline size_t any_room(size_t result, int flawed)
{
    if (flawed && result > 0)
        return one_in(2) ? result - 1 : below(result);
    return result + (one_in(2) ? 0 : below(40));
}

/* A string of that length that begins as this one. */
static inline struct bytes sized(struct bytes b, size_t len)
{
    return len <= b.len ? cut(b, len) : joined(b, some(len - b.len));
}

/* One bit changed; of an empty string, none. */
static inline struct bytes bit_changed(struct bytes b)
{
    return b.len ? changed(b, below(b.len), 1u << below(8)) : b;
}

/* Any damage to a string whose layout is not looked at: bits, bytes, its end, a byte out of it or into it. */
static inline struct bytes damaged(struct bytes b)
{
    static const unsigned char values[] = { 0, 1, 2, 3, 4, 5, 0x10, 0x7f, 0x80, 0xbf, 0xc0, 0xff };
    size_t at = b.len ? below(b.len) : 0;
    struct bytes rest = { b.at + at, b.len - at };
    switch (b.len ? below(7) : 0) {
    case 0: return joined(b, some(1 + below(one_in(2) ? 1 : 80)));
    case 1: return cut(b, one_in(2) ? b.len - 1 : at);
    case 2: return bit_changed(bit_changed(b));
    case 3: return with(b, at, 1, ONE_OF(values));
    case 4: return joined(cut(b, at), joined(some(1), rest));
    case 5: rest.at++, rest.len--; return joined(cut(b, at), rest);
    }
    return bit_changed(b);
}

/* Now and then damage to one of a call's strings, whichever it is, or another string in its place. */
static inline struct bytes *any_damage(struct bytes *w, int count)
{
    struct bytes *b = &w[below((uint64_t)count)];
    if (one_in(32))
        *b = one_in(4) ? some(any_length()) : damaged(*b);
    return w;
}

static inline void write_made(const char *name, struct bytes *w, int count, size_t room)
{
    write_call(MADE, name, any_damage(w, count), count, room);
}

#endif
