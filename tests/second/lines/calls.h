/* What the writers of lines share: strings and numbers from a seed, and a call written as a line. */
#ifndef CALLS_H
#define CALLS_H

#include <stdint.h>
#include "../words.h"

#define COUNT(a) (sizeof(a) / sizeof((a)[0]))

/* In place of a room: the call is lent no output. */
#define NO_OUTPUT ((size_t)-1)

static unsigned long long state;
static unsigned long lines;

/* The seed stands in the lines. */
static inline void start_from(const char *seed)
{
    state = strtoull(seed, NULL, 10);
    printf("# seed %llu\n", state);
    state = state * 2654435769u + 88172645463325252u;
}

/* xorshift64: any stream of bytes serves. */
static inline unsigned char byte(void)
{
    state ^= state << 13;
    state ^= state >> 7;
    state ^= state << 17;
    return (unsigned char)(state >> 32);
}

static inline struct bytes some(size_t n)
{
    struct bytes b = { malloc(n + 1), n };
    if (!b.at)
        fail("no memory", "some");
    for (size_t i = 0; i < n; i++)
        b.at[i] = byte();
    return b;
}

static inline uint64_t any_number(int bytes)
{
    uint64_t n = 0;
    while (bytes-- > 0)
        n = n << 8 | byte();
    return n;
}

/* A call with strings, then numbers, then the room of its output. A line's name is what it is about and its place among the lines. */
static inline void write_whole(const char *about, const char *name, const struct bytes *w, int count,
                               const unsigned long long *numbers, int more, size_t room)
{
    printf("%s.%lu %s", about, ++lines, name);
    for (int i = 0; i < count; i++)
        put_hex(w[i].at, w[i].len);
    for (int i = 0; i < more; i++)
        printf(" %llu", numbers[i]);
    if (room != NO_OUTPUT)
        printf(" %zu", room);
    putchar('\n');
}

static inline void write_call(const char *about, const char *name, const struct bytes *w, int count, size_t room)
{
    write_whole(about, name, w, count, NULL, 0, room);
}

/* A call with one string and then numbers. */
static inline void write_numbered(const char *about, const char *name, struct bytes w, const unsigned long long *numbers,
                                  int count)
{
    write_whole(about, name, &w, 1, numbers, count, NO_OUTPUT);
}

/* A lookup: table and name, and then the type. */
static inline void write_find(const char *about, const struct bytes *w, unsigned type)
{
    write_whole(about, "find", w, 2, &(unsigned long long){ type }, 1, NO_OUTPUT);
}

/* A session's life: the strings that each of its calls is lent, its prefix, start and spent byte, and the calls' rooms. */
static inline void write_life(const char *about, const char *name, const struct bytes *w, int count, uint32_t prefix,
                              uint64_t start, unsigned spent, const size_t *rooms, size_t calls)
{
    printf("%s.%lu %s", about, ++lines, name);
    for (int i = 0; i < count; i++)
        put_hex(w[i].at, w[i].len);
    printf(" %lu %llu %u ", (unsigned long)prefix, (unsigned long long)start, spent);
    for (size_t i = 0; i < calls; i++)
        printf("%s%zu", i ? "," : "", rooms[i]);
    putchar('\n');
}

/* A session that is only started. */
static inline void write_start(const char *about, uint32_t prefix, uint64_t start)
{
    printf("%s.%lu session_start %lu %llu\n", about, ++lines, (unsigned long)prefix, (unsigned long long)start);
}

#endif
