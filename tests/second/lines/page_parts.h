/*
 * What the writers of lines on key pages use: the rows that the pages name, pages and their parts, and the calls on them as
 * lines. Nothing is freed: these programs are short.
 */
#ifndef PAGE_PARTS_H
#define PAGE_PARTS_H

#include "descriptors.h"
#include "../model/pages.h"
#include "rows.h"

/*
 * The rows that pages name, data rows by their mode and key-encrypting keys by their type; and their table. Those and the
 * row for CCM have one name, and all names are long enough for a reference.
 */
static struct row named[3], keks[3];
static struct bytes holders;

static const unsigned formats[] = { PLAIN_KEY, REFERENCE, WRAPPED_KEY };

/* To be called first: the seed, and the rows from it. */
static inline void begin_pages(int argc, char **argv)
{
    begin(argc, argv);
    for (unsigned mode = 1; mode <= 2; mode++)
        named[mode] = data_row(some(mode == 1 ? 9 : 20), some(32), mode);
    for (unsigned type = 1; type <= 2; type++)
        keks[type] = kek_row(named[1].name, some(32), type);
    holders = table_of((struct row[]){ keks[1], named[1], named[2], keks[2] }, 4);
}

static inline void reads(const char *about, struct bytes page)
{
    write_call(about, "page_read", &page, 1, NO_OUTPUT);
}

static inline void loads(const char *about, struct bytes table, struct bytes page, size_t room)
{
    struct bytes w[] = { table, page };
    write_call(about, "page_load", w, 2, room);
}

/* Where a page's parts are. */
static inline void takes_apart(const char *about, struct bytes page)
{
    write_call(about, "page_parts", &page, 1, NO_OUTPUT);
}

/* What the page is by itself, and its load. */
static inline void both(const char *about, struct bytes page)
{
    reads(about, page);
    takes_apart(about, page);
    loads(about, holders, page, 34);
}

/* A copy with a number at a place. */
static inline struct bytes with(struct bytes b, size_t at, int count, uint64_t value)
{
    struct bytes c = joined(b, nothing);
    if (at + (size_t)count > b.len)
        fail("no such place", "with");
    put(c.at + at, count, value);
    return c;
}

/* The page, of four bytes or more, with the PAGE LENGTH of its length. */
static inline struct bytes fitted(struct bytes page)
{
    return with(page, 2, 2, page.len - 4);
}

/* A page with these, and any permitted fields. */
static inline struct bytes page_of(unsigned index, unsigned format, struct bytes key, struct bytes list)
{
    struct bytes head = room_for(PAGE_HEAD);
    memset(head.at, 0, PAGE_HEAD);
    head.at[1] = 0x10;
    head.at[4] = (unsigned char)(byte() % 3 << 5 | byte() % 2), head.at[5] = byte();
    head.at[6] = byte() % 3, head.at[7] = byte() % 4;
    head.at[8] = (unsigned char)index, head.at[9] = (unsigned char)format;
    put(head.at + 18, 2, key.len);
    return fitted(joined(joined(head, key), list));
}

/* A page with fields from SCOPE to KEY FORMAT that fit their bits. */
static inline struct bytes page_from(const unsigned long long *f, struct bytes key, struct bytes list)
{
    struct bytes head = room_for(PAGE_HEAD);
    memset(head.at, 0, head.len);
    head.at[1] = 0x10;
    head.at[4] = (unsigned char)(f[0] << 5 | f[1]);
    head.at[5] = (unsigned char)(f[2] << 6 | f[3] << 4 | f[4] << 3 | f[5] << 2 | f[6] << 1 | f[7]);
    for (int i = 0; i < 4; i++)
        head.at[6 + i] = (unsigned char)f[8 + i];
    put(head.at + 18, 2, key.len);
    return fitted(joined(joined(head, key), list));
}

static inline struct bytes wrapped_by(const struct row *r)
{
    struct bytes key = some(32), wrapped = room_for(40);
    must(key_wrap(1, r->key.at, key.at, wrapped.at), "wrap");
    return wrapped;
}

static inline struct bytes wrapped_part(unsigned type, struct bytes identifier, struct bytes wrapped)
{
    struct bytes head = room_for(4);
    put(head.at, 2, type), put(head.at + 2, 2, identifier.len);
    return joined(joined(head, identifier), wrapped);
}

/* A KEY part by these rows that a load takes; a wrapped key's KEK type is the index. */
static inline struct bytes key_of(unsigned index, unsigned format)
{
    if (format == REFERENCE)
        return named[index].name;
    return format == WRAPPED_KEY ? wrapped_part(index, keks[index].name, wrapped_by(&keks[index])) : some(32);
}

static inline struct bytes list_with(unsigned descriptors)
{
    static const unsigned char types[] = { 0x01, 0x03, 0xc0 };
    return list_of(types, descriptors, descriptors);
}

/* The page with one descriptor more in its list, where types rise. */
static inline struct bytes page_with(struct bytes page, unsigned type, struct bytes contents)
{
    size_t at = PAGE_HEAD + get(page.at + 18, 2);
    struct bytes rest;
    while (at < page.len && page.at[at] < type)
        at += DESCRIPTOR_HEAD + get(page.at + at + 2, 2);
    rest.at = page.at + at, rest.len = page.len - at;
    return fitted(joined(cut(page, at), joined(descriptor(type, contents), rest)));
}

/* A page as long as that, by its last descriptor. */
static inline struct bytes page_as_long(unsigned index, unsigned format, struct bytes key, size_t len)
{
    struct bytes first = list_with(1);
    return page_of(index, format, key, joined(first, descriptor(0xc0, some(len - PAGE_HEAD - 4 - key.len - first.len))));
}

static inline struct bytes good(unsigned index, unsigned format, unsigned descriptors)
{
    return page_of(index, format, key_of(index, format), list_with(descriptors));
}

#endif
