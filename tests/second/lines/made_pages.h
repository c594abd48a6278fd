/* Random calls on key pages. */
#ifndef MADE_PAGES_H
#define MADE_PAGES_H

#include "made_lists.h"
#include "made_tables.h"

/* A KEY part that does not keep the layout of its format. */
static inline struct bytes bad_part(unsigned format, struct bytes key)
{
    if (format != WRAPPED_KEY)
        return sized(key, format == REFERENCE ? below(REFERENCE_LEAST) : another_length(PAGE_KEY));
    switch (below(3)) {
    case 0: return cut(key, below(4));
    case 1: return with(key, 2, 2, 0);
    }
    return with(key, 2, 2, key.len - 3 + below(one_in(2) ? 1 : 2000));
}

/* A page with a reserved descriptor or two, often 30h for 03h or at an end of the range. */
static inline struct bytes page_with_reserved(struct bytes page)
{
    static const unsigned types[] = { 0x04, 0x05, 0x30, 0x30, 0xbe, 0xbf };
    unsigned type = one_in(2) ? ONE_OF(types) : 0x04 + (unsigned)below(0xbc);
    page = page_with(page, type, likely(below(16)));
    return type < 0xbf && one_in(4) ? page_with(page, type + 1, nothing) : page;
}

/* A page that does not keep the layout, whatever its KEY part: its head, its lengths or its list; or any damage. */
static inline struct bytes bad_page(struct bytes page)
{
    static const int lengths[] = { 2, 18 };
    int at = ONE_OF(lengths);
    switch (below(10)) {
    case 0: return damaged(page);
    case 1: return changed(page, below(2), 1u << below(8));
    case 2: return changed(page, 4, 2u << below(4));
    case 3: return changed(page, 10 + below(8), 1u << below(8));
    case 4: return with(page, (size_t)at, 2, get(page.at + at, 2) + (one_in(2) ? 1 : UINT64_MAX));
    case 5: return fitted(sized(page, page.len + 1 + below(3)));
    case 6: case 7: case 8: return page_with_reserved(page);
    }
    return fitted(cut(page, 4 + below(page.len - 4)));
}

/* A page with a field, a KEK type or a format that is not permitted. */
static inline struct bytes page_not_permitted(struct bytes page)
{
    static const unsigned unknown[] = { 2, 3, 5, 6, 0x10, 0x81, 0xff }, types[] = { 0, 3, 4, 0x100, 0x101, 0x200, 0xffff };
    switch (below(page.at[9] == WRAPPED_KEY && get(page.at + 18, 2) > 1 ? 6 : 5)) {
    case 0: return with(page, 4, 1, (page.at[4] & 0x1f) | (3 + below(5)) << 5);
    case 1: return with(page, 6, 1, 3 + below(one_in(2) ? 1 : 253));
    case 2: return with(page, 7, 1, 4 + below(one_in(2) ? 1 : 252));
    case 3: return with(page, 8, 1, one_in(2) ? 0 : 3 + below(253));
    case 4: return with(page, 9, 1, ONE_OF(unknown));
    }
    return with(page, PAGE_HEAD, 2, ONE_OF(types));
}

struct loading {
    struct bytes table, page;
};

/* A format that has the flaws: 8 and 9 are of wrapped keys, 7 is of references, 6 of both. */
static inline unsigned any_format(unsigned flaws)
{
    if (HAS(flaws, 8) || HAS(flaws, 9))
        return WRAPPED_KEY;
    if (HAS(flaws, 7))
        return REFERENCE;
    return formats[HAS(flaws, 6) ? 1 + below(2) : below(3)];
}

/* The flaw of 9 is another key in the row, another in its place that a row of its name has, or a bit of the wrapped key. */
static inline struct loading any_loading(unsigned flaws)
{
    unsigned format = any_format(flaws), index = 1 + (unsigned)below(2);
    unsigned type = format == WRAPPED_KEY ? 1 + (unsigned)below(2) : DATA_TYPE;
    struct table *t = any_rows(format == REFERENCE ? REFERENCE_LEAST : 1);
    struct row *r = any_row(t, HAS(flaws, 6)), *other;
    int by_name = format != PLAIN_KEY && one_in(2), in_part = one_in(3);
    struct bytes name = HAS(flaws, 4) && by_name ? long_name(r->name) : r->name, wrapped = wrapped_by(r), key;
    struct loading l;
    make_kind(t, r, format == WRAPPED_KEY ? KEK_USE : HAS(flaws, 7) ? 3 - index : index, type);
    other = row_with(t->row, t->count, r->name, (type + 1 + (unsigned)below(2)) % 3);
    if (HAS(flaws, 9) && other)
        wrapped = wrapped_by(other);
    else if (HAS(flaws, 9) && one_in(4))
        r->key = bit_changed(r->key);
    else if (HAS(flaws, 9))
        wrapped = bit_changed(wrapped);
    if (HAS(flaws, 8))
        wrapped = sized(wrapped, another_length(PAGE_WRAPPED));
    key = format == REFERENCE ? name : some(PAGE_KEY);
    if (format == WRAPPED_KEY)
        key = wrapped_part(type, name, wrapped);
    if (HAS(flaws, 2) && in_part)
        key = bad_part(format, key);
    if (HAS(flaws, 4) && !by_name)
        l.page = page_as_long(index, format, key, PAGE_MAX + 1 + (one_in(2) ? 0 : below(100)));
    else if (one_in(50) && key.len < 1000)
        l.page = page_as_long(index, format, key, PAGE_MAX - below(2));
    else
        l.page = page_of(index, format, key, any_page_list(100, one_in(2) ? 0 : (unsigned)below(8)));
    if (HAS(flaws, 3))
        l.page = page_not_permitted(l.page);
    if (HAS(flaws, 2) && !in_part)
        l.page = bad_page(l.page);
    l.table = any_table(t, HAS(flaws, 1));
    return l;
}

static inline void any_page_read(void)
{
    struct bytes page = any_loading(FLAWS(2, 3, 4)).page;
    write_made("page_read", &page, 1, NO_OUTPUT);
}

static inline void any_page_parts(void)
{
    struct bytes page = any_loading(FLAWS(2, 3, 4)).page;
    write_made("page_parts", &page, 1, NO_OUTPUT);
}

static inline void any_page_load(void)
{
    unsigned flaws = FLAWS(1, 2, 3, 4, 5, 6, 7, 8, 9);
    struct loading l = any_loading(flaws);
    struct bytes w[] = { l.table, l.page };
    write_made("page_load", w, 2, any_room(PAGE_KEY, HAS(flaws, 5)));
}

#endif
