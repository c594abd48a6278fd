/* Random calls on pages that are written. */
#ifndef MADE_WRITINGS_H
#define MADE_WRITINGS_H

#include "made_pages.h"
#include "writings.h"

/* Permitted fields; or one of them, seldom two, at a boundary, too wide by its high bits alone, or any number. */
static inline void any_fields(unsigned long long *field, unsigned format, int flawed)
{
    for (unsigned i = 0; i < ALGORITHM; i++)
        field[i] = below(limits[i].highest + 1);
    field[ALGORITHM] = 1 + below(2), field[FORMAT] = format;
    do {
        unsigned i = (unsigned)below(CHOSEN);
        unsigned long long end = 1ull << limits[i].bits, values[] = { limits[i].highest + 1, end - 1, end, end + field[i],
            field[i] + (1ull << (8 + below(56))), any_number(1 + (int)below(8)), UINT64_MAX };
        if (flawed)
            field[i] = i == ALGORITHM && one_in(4) ? 0 : ONE_OF(values);
    } while (flawed && one_in(6));
}

/* A list of a page, of few descriptors; one that is too long for it, or just not; or a broken one, often by a reserved type. */
static inline struct bytes any_written_list(size_t before, int is_long, int broken)
{
    struct bytes list = any_page_list(100, one_in(2) ? 0 : (unsigned)below(8));
    if (is_long)
        list = list_as_long((one_in(20) ? 65541 : PAGE_MAX + 1) - before + (one_in(2) ? 0 : below(100)));
    else if (one_in(50) && before < 1000)
        list = list_as_long(PAGE_MAX - before - below(2));
    if (broken && one_in(2))
        return one_in(2) ? broken_list((unsigned)below(BROKEN_LISTS)) : any_list(100, (unsigned)below(8));
    return broken ? bad_list(list) : list;
}

/* The flaw of 2 is in the KEY part or in the list; that of 3 in the fields or, of a wrapped key, in its type. */
static inline void any_page_write(void)
{
    static const unsigned types[] = { 0, 3, 4, 0x100, 0x101, 0x200, 0xffff };
    unsigned flaws = FLAWS(2, 3, 4, 5, 8), format = HAS(flaws, 8) ? WRAPPED_KEY : formats[below(3)];
    int by_name = format != PLAIN_KEY && one_in(2), in_part = one_in(2), by_type = format == WRAPPED_KEY && one_in(3);
    unsigned type = HAS(flaws, 3) && by_type ? ONE_OF(types) : 1 + (unsigned)below(2);
    struct bytes name = any_name(NULL, 0, format == REFERENCE ? REFERENCE_LEAST : 1), wrapped = some(PAGE_WRAPPED), w[2];
    unsigned long long field[CHOSEN];
    any_fields(field, format, HAS(flaws, 3) && !by_type);
    if (HAS(flaws, 4) && by_name)
        name = long_name(name);
    if (HAS(flaws, 8))
        wrapped = sized(wrapped, another_length(PAGE_WRAPPED));
    w[0] = format == PLAIN_KEY ? some(PAGE_KEY) : format == REFERENCE ? name : wrapped_part(type, name, wrapped);
    if (HAS(flaws, 2) && in_part)
        w[0] = bad_part(format, w[0]);
    w[1] = any_written_list(PAGE_HEAD + w[0].len, HAS(flaws, 4) && !by_name, HAS(flaws, 2) && !in_part);
    any_damage(w, 2);
    write_whole(MADE, "page_write", w, 2, field, CHOSEN, any_room(PAGE_HEAD + w[0].len + w[1].len, HAS(flaws, 5)));
}

/* The flaw of 2 is in the key, in the list, or an empty identifier; that of 3 in the fields, or in the type. */
static inline void any_page_write_wrapped(void)
{
    static const unsigned types[] = { 0, 0, 3, 4, 0x100, 0x101, 0x102, 0x200, 0x8000, 0xffff }, others[] = { PLAIN_KEY, REFERENCE, 2, 5 };
    unsigned flaws = FLAWS(1, 2, 3, 4, 5, 6), type = 1 + (unsigned)below(2), format = WRAPPED_KEY;
    struct table *t = any_rows(1);
    struct row *r = any_row(t, HAS(flaws, 6));
    int by_name = one_in(2), way = (int)below(3);
    struct bytes w[4] = { nothing, r->name, some(PAGE_KEY), nothing };
    unsigned long long numbers[CHOSEN + 1];
    make_kind(t, r, KEK_USE, type);
    if (HAS(flaws, 4) && by_name)
        w[1] = long_name(w[1]);
    if (HAS(flaws, 2) && way == 0)
        w[1] = nothing;
    if (HAS(flaws, 2) && way == 1)
        w[2] = sized(w[2], another_length(PAGE_KEY));
    if (HAS(flaws, 3) && one_in(3))
        format = ONE_OF(others);
    any_fields(numbers, format, HAS(flaws, 3) && one_in(2));
    numbers[CHOSEN] = HAS(flaws, 3) && one_in(2) ? ONE_OF(types) : type;
    w[3] = any_written_list(PAGE_HEAD + 4 + w[1].len + PAGE_WRAPPED, HAS(flaws, 4) && !by_name, HAS(flaws, 2) && way == 2);
    w[0] = any_table(t, HAS(flaws, 1));
    any_damage(w, 4);
    write_whole(MADE, "page_write_wrapped", w, 4, numbers, CHOSEN + 1,
                any_room(PAGE_HEAD + 4 + w[1].len + PAGE_WRAPPED + w[3].len, HAS(flaws, 5)));
}

#endif
