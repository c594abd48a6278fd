/* The key table, read anew from document 01, "Key table", and document 02, No. 2. */
#ifndef KEYTABLE_H
#define KEYTABLE_H

#include "../words.h"

#define NAME_LONGEST 32
#define KEK_USE 3

/* The type of a row that is no key-encrypting key's, and the highest that a row may have. */
#define DATA_TYPE 0
#define TYPE_HIGHEST 2

static inline unsigned two(const unsigned char *at)
{
    return at[0] * 256u + at[1];
}

/* Whether a row of that use may have that type. */
static inline int type_fits(unsigned use, unsigned type)
{
    if (use == KEK_USE)
        return type == 1 || type == 2;
    return type == DATA_TYPE;
}

/* Whether a row answers: its type and its whole name are these. */
static inline int is_row(const unsigned char *row, unsigned type, const unsigned char *name, size_t len)
{
    return two(row + 2) == type && row[0] == len && memcmp(row + 8, name, len) == 0;
}

static inline int table_bad(struct bytes t)
{
    unsigned rows;
    if (t.len < 8 || two(t.at) != 1 || two(t.at + 4) != 8 || two(t.at + 6) != 0x48)
        return 1;
    rows = two(t.at + 2);
    if (rows > 64 || t.len != 8 + 72 * (size_t)rows)
        return 1;
    for (unsigned i = 0; i < rows; i++) {
        const unsigned char *row = t.at + 8 + 72 * i;
        if (row[0] < 1 || row[0] > NAME_LONGEST || row[1] < 1 || row[1] > 3 || !type_fits(row[1], two(row + 2)))
            return 1;
        for (int k = 4; k < 40; k++)
            if ((k < 8 || k >= 8 + row[0]) && row[k] != 0)
                return 1;
        for (unsigned j = 0; j < i; j++)
            if (is_row(t.at + 8 + 72 * j, two(row + 2), row + 8, row[0]))
                return 1;
    }
    return 0;
}

/* The row of that type and whole name in an accepted table, or null. */
static inline unsigned char *row_for(struct bytes t, unsigned type, const unsigned char *name, size_t len)
{
    for (size_t at = 8; at < t.len; at += 72)
        if (is_row(t.at + at, type, name, len))
            return t.at + at;
    return NULL;
}

/* Table, name; and the type. */
static inline int find(struct bytes *w, unsigned type, unsigned long long *use)
{
    const unsigned char *row;
    if (table_bad(w[0]))
        return 1;
    if (w[1].len == 0)
        return 2;
    if (type > TYPE_HIGHEST)
        return 3;
    if (w[1].len > NAME_LONGEST)
        return 4;
    row = row_for(w[0], type, w[1].at, w[1].len);
    if (!row)
        return 6;
    *use = row[1];
    return 0;
}

#endif
