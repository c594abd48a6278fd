/*
 * Lines of sessions' lives: starts at the boundaries, every spent byte, rooms too short between rooms that serve, and
 * many issues past the end. Inputs come from a seed, which is printed.
 */
#include "calls.h"

static const uint64_t starts[] = { 0, 1, 255, 256, 65535, 65536, 0xffffffff, 0x100000000, 0x7fffffffffffffff,
    0x8000000000000000, 0xffffffff00000000, 0xfffffffffffffffc, 0xfffffffffffffffd, 0xfffffffffffffffe, 0xffffffffffffffff };
static const uint32_t prefixes[] = { 0, 1, 0x01020304, 0x80000000, 0xa5a5a5a5, 0xfffffffe, 0xffffffff };

/* A session's life; the rooms come round as often as it takes. */
static void life(const char *about, uint32_t prefix, uint64_t start, unsigned spent, const size_t *rooms, size_t round,
                 size_t issues)
{
    size_t all[2000];
    for (size_t i = 0; i < issues; i++)
        all[i] = rooms[i % round];
    write_life(about, "session_issue", NULL, 0, prefix, start, spent, all, issues);
}

/* Any lives, a half of them near the end, with rooms about 12 and here and there a spent byte. */
static void any(void)
{
    for (unsigned i = 0; i < 300; i++) {
        size_t rooms[20];
        uint64_t start = any_number(1 + i % 8);
        for (size_t j = 0; j < COUNT(rooms); j++)
            rooms[j] = byte() % 2 ? 12 : byte() % 25;
        life("any", (uint32_t)any_number(4), i % 2 ? start : UINT64_MAX - start % 16, byte() % 4 ? 0 : byte(), rooms,
             COUNT(rooms), COUNT(rooms));
        write_start("any", (uint32_t)any_number(4), start);
    }
}

int main(int argc, char **argv)
{
    static const unsigned spent[] = { 0, 1, 2, 0x7f, 0x80, 0xff };
    static const size_t whole[] = { 12 }, short_of[] = { 0, 11, 8, 4 };
    static const size_t mixed[] = { 0, 12, 11, 12, 13, 1, 12, 16, 5, 12, 4096, 10, 12 };
    start_from(argc > 1 ? argv[1] : "1");
    for (size_t i = 0; i < COUNT(starts); i++) {
        for (size_t j = 0; j < COUNT(prefixes); j++) {
            write_start("start", prefixes[j], starts[i]);
            life("prefix", prefixes[j], starts[i], 0, whole, COUNT(whole), 6);
        }
        for (size_t j = 0; j < COUNT(spent); j++) {
            life("rooms", 0x01020304, starts[i], spent[j], mixed, COUNT(mixed), COUNT(mixed));
            life("short", 0x01020304, starts[i], spent[j], short_of, COUNT(short_of), COUNT(short_of));
        }
    }
    for (unsigned value = 0; value < 256; value++)
        life("spent", 0x0a0b0c0d, 0xfffffffffffffffe, value, mixed, COUNT(mixed), COUNT(mixed));
    /* carries through each byte of the number, and the end with many issues past it */
    for (int bits = 8; bits <= 64; bits += 8)
        life("carry", 0xffffffff, (bits < 64 ? (uint64_t)1 << bits : 0) - 3, 0, whole, COUNT(whole), 8);
    life("past-the-end", 0xfffefdfc, UINT64_MAX - 299, 0, whole, COUNT(whole), 600);
    life("past-the-end", 0x00010203, UINT64_MAX - 99, 0, mixed, COUNT(mixed), 1000);
    life("long", 0x11223344, 0xffffff00, 0, whole, COUNT(whole), 2000);
    any();
    return 0;
}
