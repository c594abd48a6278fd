/* Random key tables and names, and calls on them. */
#ifndef MADE_TABLES_H
#define MADE_TABLES_H

#include "draws.h"

#define ROWS_MOST 64

/* The rows of a table, with room for one too many, and after them a row that the table has not. */
struct table {
    struct row row[ROWS_MOST + 2];
    unsigned count;
};

/* A name that begins as this one: a byte more, often zero; a byte less; the last letters others. */
static inline struct bytes near_name(struct bytes name)
{
    static const unsigned char ends[] = { 0, 0, '0', ' ' };
    struct bytes end = { (unsigned char *)&ONE_OF(ends), 1 };
    switch (below(4)) {
    case 0: return bit_changed(name);
    case 1: return name.len > 1 ? cut(name, name.len - 1) : joined(name, end);
    case 2: return joined(cut(name, name.len - 1), some(1 + below(2)));
    }
    return joined(name, end);
}

/* A name of `least` bytes or more that none of the first so many rows has. */
static inline struct bytes any_name(const struct row *row, unsigned count, size_t least)
{
    static const size_t edges[] = { 1, 2, 5, 9, 31, 32 };
    struct bytes vendor = { (unsigned char *)"VENDOR  ", 8 }, tape = { (unsigned char *)"TAPE1", 5 }, name;
    unsigned i;
    do {
        name = one_in(4) ? tape : some(one_in(2) ? ONE_OF(edges) : 1 + below(NAME_LONGEST));
        if (count > 0 && one_in(3))
            name = near_name(row[below(count)].name);
        if (name.len < least)
            name = joined(vendor, name);
        name.len = name.len > NAME_LONGEST ? NAME_LONGEST : name.len;
        for (i = 0; i < count; i++)
            if (row[i].name.len == name.len && memcmp(row[i].name.at, name.at, name.len) == 0)
                break;
    } while (i < count);
    return name;
}

/* The row of a name and a type among the first so many, or null. */
static inline struct row *row_with(struct row *row, unsigned count, struct bytes name, unsigned type)
{
    for (unsigned i = 0; i < count; i++)
        if (row[i].type == type && row[i].name.len == name.len && memcmp(row[i].name.at, name.at, name.len) == 0)
            return &row[i];
    return NULL;
}

/* Rows of any kind, many of them with the name of an earlier one and another type. */
static inline struct table *any_rows(size_t least)
{
    static struct table t;
    t.count = (unsigned)(one_in(40) ? ROWS_MOST : one_in(20) ? below(ROWS_MOST + 1) : one_in(5) ? below(21) : below(6));
    for (unsigned i = 0; i <= t.count; i++) {
        struct row *r = &t.row[i], *earlier = i > 0 && one_in(2) ? &t.row[below(i)] : NULL;
        *r = row_as(any_name(t.row, i, least), some(32), (unsigned)below(COUNT(kinds)));
        if (earlier && !row_with(t.row, i, earlier->name, r->type))
            r->name = earlier->name;
    }
    return &t;
}

/* Makes a row one of that use and type. Where there is one of its name and that type, the two change places in both. */
static inline void make_kind(struct table *t, struct row *r, unsigned use, unsigned type)
{
    struct row *other = row_with(t->row, t->count + 1, r->name, type);
    if (other)
        other->use = r->use, other->type = r->type;
    r->use = use, r->type = type;
}

/* The row that a call is about: one of the table's, or one that it has not, often of a name that it has with other types. */
static inline struct row *any_row(struct table *t, int none)
{
    struct row *r = &t->row[t->count], *like = t->count ? &t->row[below(t->count)] : NULL;
    unsigned kind = (unsigned)below(COUNT(kinds));
    if (like && !none)
        return like;
    if (like && one_in(2) && !row_with(t->row, t->count, like->name, kinds[kind].type))
        *r = row_as(like->name, r->key, kind);
    return r;
}

/* A type that a row of that use must not have. */
static inline unsigned wrong_type(unsigned use)
{
    static const unsigned of_data[] = { 1, 1, 2, 2, 3, 0x100, 0x200, 0xffff };
    static const unsigned of_keks[] = { 0, 0, 3, 0x100, 0x101, 0x102, 0x200, 0xffff };
    return use == KEK_USE ? ONE_OF(of_keks) : ONE_OF(of_data);
}

/* The table with any damage; a flaw in its header, its total or a row; two rows of one name and type; or a row too many. */
static inline struct bytes bad_table(struct table *t)
{
    static const unsigned lengths[] = { 0, 33, 64, 255 }, uses[] = { 0, 4, 255 };
    struct bytes whole = table_of(t->row, t->count);
    const struct row *r = any_row(t, 0);
    size_t at = 8 + 72 * (size_t)(r - t->row);
    switch (below(t->count ? 11 : 3)) {
    case 0: return damaged(whole);
    case 1: return changed(whole, below(8), 1u << below(8));
    case 2: return one_in(2) ? sized(whole, whole.len + 72) : with(whole, 2, 2, below(70));
    case 3: return with(whole, at, 1, ONE_OF(lengths));
    case 4: return with(whole, at + 1, 1, ONE_OF(uses));
    case 5: return changed(whole, at + 2 + below(6), 1u << below(8));
    case 6: return changed(whole, at + 8 + (r->name.len < 32 ? r->name.len + below(32 - r->name.len) : 31), 1u << below(8));
    case 7: case 8: return with(whole, at + 2, 2, wrong_type(r->use));
    case 9:
        t->row[t->count] = r->type ? kek_row(r->name, some(32), r->type) : data_row(r->name, some(32), 1 + (unsigned)below(2));
        return table_of(t->row, t->count + 1);
    }
    while (t->count < ROWS_MOST) {
        t->count++;
        t->row[t->count] = row_as(any_name(t->row, t->count, 1), some(32), (unsigned)below(COUNT(kinds)));
    }
    return table_of(t->row, ROWS_MOST + 1);
}

static inline struct bytes any_table(struct table *t, int flawed)
{
    return flawed ? bad_table(t) : table_of(t->row, t->count);
}

/* A name that is too long, and begins as this one. */
static inline struct bytes long_name(struct bytes name)
{
    struct bytes longer = sized(name, NAME_LONGEST + 1 + (one_in(2) ? 0 : below(300)));
    if (one_in(2))
        memset(longer.at + name.len, 0, longer.len - name.len);
    return longer;
}

static inline void any_table_check(void)
{
    struct bytes table = any_table(any_rows(1), one_in(2));
    write_made("table_check", &table, 1, NO_OUTPUT);
}

static inline void any_find(void)
{
    static const unsigned types[] = { 3, 3, 4, 0xff, 0x100, 0x101, 0x102, 0x200, 0x8000, 0xffff };
    unsigned flaws = FLAWS(1, 2, 3, 4, 6);
    struct table *t = any_rows(1);
    struct row r = *any_row(t, HAS(flaws, 6));
    struct bytes asked = HAS(flaws, 2) ? nothing : HAS(flaws, 4) ? long_name(r.name) : r.name;
    struct bytes w[] = { any_table(t, HAS(flaws, 1)), asked };
    write_find(MADE, any_damage(w, 2), HAS(flaws, 3) ? ONE_OF(types) : r.type);
}

#endif
