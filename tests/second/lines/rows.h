/*
 * What the writers of lines on records share: the rows of a table, records sealed by them, and the four calls as
 * lines. Nothing is freed: these programs are short.
 */
#ifndef ROWS_H
#define ROWS_H

#include "calls.h"
#include "../model/records.h"

/* What stands in a row, its type in bytes 2-3. */
struct row {
    struct bytes name, key;
    unsigned use, type;
};

/* The uses that a row may have, each with each type that goes with it. */
static const struct kind {
    unsigned use, type;
} kinds[] = { { 1, 0 }, { 2, 0 }, { 3, 1 }, { 3, 2 } };

/*
 * Rows of either mode with names of four sizes. Then key-encrypting keys: of either type with one name, and of either type
 * with the name of a row of data, which row_of gives. The table has these four first.
 */
#define DATA_ROWS 8
#define ROWS 12
static const size_t sizes[] = { 1, 5, 31, 32 };
static struct row rows[ROWS];
static const struct row *const kek = &rows[DATA_ROWS];
static struct bytes keys;

static inline struct bytes table_of(const struct row *row, unsigned count)
{
    struct bytes t = room_for(8 + 72 * count);
    memset(t.at, 0, t.len);
    put(t.at, 2, 1), put(t.at + 2, 2, count), put(t.at + 4, 2, 8), put(t.at + 6, 2, 72);
    for (unsigned i = 0; i < count; i++) {
        unsigned char *at = t.at + 8 + 72 * i;
        at[0] = (unsigned char)row[i].name.len, at[1] = (unsigned char)row[i].use;
        put(at + 2, 2, row[i].type);
        memcpy(at + 8, row[i].name.at, row[i].name.len);
        memcpy(at + 40, row[i].key.at, 32);
    }
    return t;
}

/* To be called first: the seed, and the rows from it. */
static inline void begin(int argc, char **argv)
{
    struct row in_order[ROWS];
    start_from(argc > 1 ? argv[1] : "1");
    for (unsigned i = 0; i < ROWS; i++) {
        rows[i].name = some(i < DATA_ROWS ? sizes[i % 4] : 7), rows[i].name.at[0] = (unsigned char)('A' + i);
        rows[i].key = some(32);
        rows[i].use = 1 + i / 4;
        rows[i].type = i < DATA_ROWS ? DATA_TYPE : 1 + i % 2;
    }
    rows[DATA_ROWS + 1].name = kek->name;
    rows[DATA_ROWS + 2].name = rows[1].name, rows[DATA_ROWS + 3].name = rows[5].name;
    for (unsigned i = 0; i < ROWS; i++)
        in_order[i] = rows[(DATA_ROWS + i) % ROWS];
    keys = table_of(in_order, ROWS);
}

/* A row of one of the kinds; a data row of a mode; a key-encrypting key's of a type. */
static inline struct row row_as(struct bytes name, struct bytes key, unsigned kind)
{
    return (struct row){ name, key, kinds[kind].use, kinds[kind].type };
}

static inline struct row data_row(struct bytes name, struct bytes key, unsigned mode)
{
    return (struct row){ name, key, mode, DATA_TYPE };
}

static inline struct row kek_row(struct bytes name, struct bytes key, unsigned type)
{
    return (struct row){ name, key, KEK_USE, type };
}

/* A row of that mode; its name, which a key-encrypting key has too, has 5 bytes. */
static inline const struct row *row_of(unsigned mode)
{
    return &rows[4 * (mode - 1) + 1];
}

static inline void seals(const char *about, struct bytes table, struct bytes name, struct bytes iv, struct bytes aad,
                         struct bytes plain, size_t room)
{
    struct bytes w[] = { table, name, iv, aad, plain };
    write_call(about, "seal", w, 5, room);
}

static inline void opens(const char *about, struct bytes table, struct bytes record, struct bytes aad, size_t room)
{
    struct bytes w[] = { table, record, aad };
    write_call(about, "open", w, 3, room);
}

/* What opening gives, without an output. */
static inline void verifies(const char *about, struct bytes table, struct bytes record, struct bytes aad)
{
    struct bytes w[] = { table, record, aad };
    write_call(about, "verify", w, 3, NO_OUTPUT);
}

static inline void opens_and_verifies(const char *about, struct bytes table, struct bytes record, struct bytes aad, size_t room)
{
    opens(about, table, record, aad, room);
    verifies(about, table, record, aad);
}

static inline void checks(const char *about, struct bytes record)
{
    write_call(about, "record_check", &record, 1, NO_OUTPUT);
}

/* Words of a record's header, by their places and sizes; no size, the last, stands for the record's own length. */
struct word {
    int at, size;
};

static const struct word header_words[] = { { 0, 2 }, { 2, 1 }, { 3, 1 }, { 4, 4 }, { 8, 2 }, { 10, 2 }, { 12, 2 }, { 14, 2 },
    { 16, 4 }, { 20, 4 }, { 0, 0 } };

/* The second program's own sealing by a row; a key-encrypting key's is taken as if it were for GCM. */
static inline struct bytes record_by(const struct row *r, struct bytes aad, size_t n)
{
    return record_of(r->use == 1, r->key, front_of(r->use == 1 ? 1 : 2, r->name, n), some(IV), aad, some(n));
}

#endif
