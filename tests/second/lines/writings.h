/*
 * What the writers of lines on pages that are written use: what a page is written from, the values of its fields that are
 * and are not taken, and the calls as lines, each with its answer after it. Nothing is freed: these programs are short.
 */
#ifndef WRITINGS_H
#define WRITINGS_H

#include "answers.h"
#include "page_parts.h"

/* The fields that a page is written from, and how many more bytes are lent for it than it takes. */
#define CHOSEN 12
#define MORE 2

/*
 * What a page is written from: its fields and descriptors; a KEY part, or a key to be wrapped, the type and the identifier
 * of the row, that row's key and the table. `more` is how many bytes of room there are more than the page takes.
 */
struct writing {
    unsigned long long field[CHOSEN];
    struct bytes list, part, key, identifier, kek, table;
    unsigned type;
    long more;
};

/* Of each field, the bits that it has in the page and the highest that is permitted; the last two permit not all below it. */
static const struct limit {
    unsigned bits, highest;
} limits[CHOSEN] = { { 3, 2 }, { 1, 1 }, { 2, 3 }, { 2, 3 }, { 1, 1 }, { 1, 1 }, { 1, 1 }, { 1, 1 }, { 8, 2 }, { 8, 3 }, { 8, 2 }, { 8, 4 } };

enum { ALGORITHM = 10, FORMAT = 11 };

/* Whether a field may have that value. */
static inline int permitted(unsigned field, unsigned long long value)
{
    if (field == FORMAT && (value == 2 || value == 3))
        return 0;
    return value <= limits[field].highest && (field != ALGORITHM || value > 0);
}

/* Permitted fields, and all else that both calls take. */
static inline struct writing any_writing(unsigned format)
{
    struct writing w = { .list = list_with(byte() % 4), .key = some(PAGE_KEY), .table = holders, .more = MORE };
    for (unsigned i = 0; i < ALGORITHM; i++)
        w.field[i] = byte() % (limits[i].highest + 1);
    w.field[ALGORITHM] = 1 + byte() % 2, w.field[FORMAT] = format;
    w.part = key_of((unsigned)w.field[ALGORITHM], format);
    w.type = 1 + byte() % 2;
    w.identifier = keks[w.type].name, w.kek = keks[w.type].key;
    return w;
}

static inline size_t room_of(const struct writing *w, uint64_t total)
{
    return w->more < 0 && total < (uint64_t)-w->more ? 0 : (size_t)(total + (uint64_t)w->more);
}

/* Writes the page of a KEY part; after 0 it is this page. */
static inline struct bytes writes(const char *about, const struct writing *w, unsigned number)
{
    struct bytes strings[] = { w->part, w->list }, page = number == 0 ? page_from(w->field, w->part, w->list) : nothing;
    unsigned long long total = PAGE_HEAD + w->part.len + w->list.len;
    write_whole(about, "page_write", strings, 2, w->field, CHOSEN, room_of(w, total));
    answers(about, number, page, room_of(w, total), &total, 1);
    return page;
}

/* The KEY part of a key that is wrapped by the row's key. */
static inline struct bytes part_by(const struct writing *w)
{
    struct bytes wrapped = room_for(PAGE_WRAPPED);
    must(key_wrap(1, w->kek.at, w->key.at, wrapped.at), "wrap");
    return wrapped_part(w->type, w->identifier, wrapped);
}

/* Wraps the key and writes its page; after 0 it is this page. */
static inline struct bytes wraps(const char *about, const struct writing *w, unsigned number)
{
    struct bytes strings[] = { w->table, w->identifier, w->key, w->list };
    struct bytes page = number == 0 ? page_from(w->field, part_by(w), w->list) : nothing;
    unsigned long long numbers[CHOSEN + 1], total = PAGE_HEAD + 4 + w->identifier.len + PAGE_WRAPPED + w->list.len;
    memcpy(numbers, w->field, sizeof w->field);
    numbers[CHOSEN] = w->type;
    write_whole(about, "page_write_wrapped", strings, 4, numbers, CHOSEN + 1, room_of(w, total));
    answers(about, number, page, room_of(w, total), &total, 1);
    return page;
}

/* How many descriptors stand in a list that keeps its layout. */
static inline unsigned long long descriptors_in(struct bytes list)
{
    unsigned long long count = 0;
    for (size_t at = 0; at < list.len; at += DESCRIPTOR_HEAD + get(list.at + at + 2, 2))
        count++;
    return count;
}

/* The fields of a page so written; those that are not chosen follow. */
static inline void fields_as(const struct writing *w, size_t key_length, unsigned long long *fields)
{
    memcpy(fields, w->field, sizeof w->field);
    fields[12] = key_length, fields[13] = descriptors_in(w->list);
}

/* What is read of a page, and where its parts are, by what it was written from. */
static inline void reads_as(const char *about, struct bytes page, const struct writing *w, unsigned number)
{
    unsigned long long fields[PAGE_FIELDS], at[4] = { PAGE_HEAD + w->part.len, 0, 0, 0 };
    if (number == 0)
        fields_as(w, w->part.len, fields);
    if (number == 0 && w->field[FORMAT] == WRAPPED_KEY)
        at[1] = two(w->part.at), at[2] = PAGE_HEAD + 4, at[3] = PAGE_HEAD + 4 + get(w->part.at + 2, 2);
    reads(about, page);
    answers(about, number, nothing, NO_OUTPUT, fields, PAGE_FIELDS);
    takes_apart(about, page);
    answers(about, number, nothing, NO_OUTPUT, at, 4);
}

/* What a load gives of a page so written: the key, and the fields. */
static inline void loads_as(const char *about, struct bytes table, struct bytes page, const struct writing *w, struct bytes key)
{
    unsigned long long fields[PAGE_FIELDS];
    fields_as(w, get(page.at + 18, 2), fields);
    loads(about, table, page, PAGE_KEY + MORE);
    answers(about, 0, key, PAGE_KEY + MORE, fields, PAGE_FIELDS);
}

/*
 * Hands on each value of a field that lies at a boundary: all up to one more than the highest, those about the end of its
 * bits, and what is permitted with a higher bit, which its place in the page would lose.
 */
static inline void each_value(unsigned field, void (*with_value)(unsigned field, unsigned long long value))
{
    static const unsigned higher[] = { 8, 16, 32, 63 };
    unsigned long long end = 1ull << limits[field].bits;
    for (unsigned long long value = 0; value <= limits[field].highest + 1; value++) {
        with_value(field, value);
        with_value(field, end + value);
        with_value(field, 2 * end + value);
        for (size_t i = 0; i < COUNT(higher); i++)
            with_value(field, (1ull << higher[i]) + value);
    }
    with_value(field, end - 1);
    with_value(field, UINT64_MAX);
    with_value(field, UINT64_MAX - end + 1);
}

/* A list with a flaw, of so many ways: a reserved type, a type twice, one that falls, a byte 1 that is not zero, bytes left. */
#define BROKEN_LISTS 6
static inline struct bytes broken_list(unsigned way)
{
    struct bytes list = list_with(3);
    switch (way % BROKEN_LISTS) {
    case 0: return descriptor(0x30, some(1));
    case 1: return joined(list, descriptor(0xc0, nothing));
    case 2: return joined(list, descriptor(0x02, nothing));
    case 3: return with(list, 1, 1, 1);
    case 4: return joined(list, cut(descriptor(0xff, nothing), 3));
    }
    return cut(list, list.len - 1);
}

/* A list of so many bytes, 4 or more, whose last descriptors are as long as it takes. */
static inline struct bytes list_as_long(size_t len)
{
    struct bytes list = nothing;
    for (unsigned type = 0xc0; list.len < len; type++) {
        size_t left = len - list.len, whole = left <= 4 + 65535 ? left : left < 8 + 65535 ? left - 4 : 4 + 65535;
        list = joined(list, descriptor(type, some(whole - 4)));
    }
    return list;
}

#endif
