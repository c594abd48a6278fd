/* What the examples share: the meaning of each number, what was expected, bytes shown in hex, and key tables. */
#ifndef ANSWERS_H
#define ANSWERS_H

#include <stdio.h>
#include <string.h>
#include "spadeswirl.h"

/* A byte string that a call reads, and how it is handed to one: a pointer and its length. */
struct bytes {
    const uint8_t *at;
    size_t len;
};

#define TEXT(letters) { (const uint8_t *)(letters), sizeof(letters) - 1 }
#define BYTES(array) { (array), sizeof(array) }
#define LENT(b) (b).at, (b).len

static inline struct bytes text(const char *letters)
{
    struct bytes b = { (const uint8_t *)letters, strlen(letters) };
    return b;
}

static const char *const meanings[] = {
    "done", "the key table breaks its layout", "a layout is broken, or a length is wrong", "not permitted, or not known",
    "a maximum is passed", "the output is shorter than the result", "no row of that type and name",
    "the row's use is another", "a wrapped key is not 40 bytes", "the tag or the wrapped key is wrong", "the IV session is spent",
};

/* The output that every call is lent: full of A5h before each. */
static uint8_t out[256];
static unsigned surprises;

static inline uint8_t *fresh_out(void)
{
    memset(out, 0xa5, sizeof out);
    return out;
}

/* A line on one call: what was tried, the number and its meaning. A refusal leaves the output as it was. */
static inline void expect(const char *tried, uint8_t expected, uint8_t number)
{
    size_t same = 0;
    printf("%-58s %2u  %s\n", tried, number, meanings[number]);
    if (number != expected)
        surprises++, printf("    but %u was expected\n", expected);
    while (same < sizeof out && out[same] == 0xa5)
        same++;
    if (number != 0 && same < sizeof out)
        surprises++, printf("    but the output was changed\n");
}

/* The closing line, and the program's status. */
static inline int all_as_expected(void)
{
    printf(surprises ? "%u answers were not as expected\n" : "every answer was as expected\n", surprises);
    return surprises != 0;
}

static inline void show(const char *what, struct bytes b)
{
    printf("%s:", what);
    for (size_t i = 0; i < b.len; i++)
        printf("%s%02x", i % 32 ? "" : "\n    ", b.at[i]);
    putchar('\n');
}

/* A key table's header: format 1, the count of rows, the first row's place, the length of a row. */
#define TABLE(rows) SPADESWIRL_TABLE_BYTES(rows)
enum { CCM = SPADESWIRL_CCM, GCM = SPADESWIRL_GCM };

static inline void begin_table(uint8_t *table, uint8_t rows)
{
    memset(table, 0, TABLE(rows));
    table[1] = 1, table[3] = rows, table[5] = SPADESWIRL_TABLE_HEADER_BYTES, table[7] = SPADESWIRL_ROW_BYTES;
}

/* A data row: the name's length, its use, the name, and a key of 32 bytes that count up from `first`. */
static inline uint8_t *set_row(uint8_t *table, unsigned i, const char *name, uint8_t use, uint8_t first)
{
    uint8_t *row = table + TABLE(i);
    row[0] = (uint8_t)strlen(name), row[1] = use;
    memcpy(row + 8, name, row[0]);
    for (unsigned k = 0; k < SPADESWIRL_KEY_BYTES; k++)
        row[40 + k] = (uint8_t)(first + k);
    return row;
}

/* The row of a key-encrypting key, with the KEK type of the pages that name it. */
static inline uint8_t *set_kek(uint8_t *table, unsigned i, const char *name, uint8_t type, uint8_t first)
{
    uint8_t *row = set_row(table, i, name, SPADESWIRL_KEK, first);
    row[3] = type;
    return row;
}

#endif
