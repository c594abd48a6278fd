/*
 * Key pages written, and where their parts are, read anew from document 01, "Key page" and "Numbers given back", and
 * document 02, No. 3. Every field is tested as it is given, and every length taken, in 64 bits.
 */
#ifndef WRITTEN_PAGES_H
#define WRITTEN_PAGES_H

#include "pages.h"

/* The fields that a page is written from, SCOPE to KEY FORMAT, and how many numbers say where its parts are. */
#define CHOSEN_FIELDS 12
#define PAGE_PARTS 4

/* What stands before the identifier in a KEY part of format 04h, and a KEY FORMAT that is none. */
#define WRAPPED_HEAD 4
#define NO_FORMAT 0xff

/* The highest that is permitted for each field from SCOPE to DECRYPTION MODE. Whatever is too wide for its bits is higher. */
static const unsigned long long highest[] = { 2, 1, 3, 3, 1, 1, 1, 1, 2, 3 };

/* The format of fields: a number of more than eight bits is none, whatever its low bits are. */
static inline unsigned format_of(const unsigned long long *fields)
{
    return fields[11] > 0xff ? NO_FORMAT : (unsigned)fields[11];
}

static inline int fields_permitted(const unsigned long long *fields)
{
    unsigned format = format_of(fields);
    for (size_t i = 0; i < sizeof highest / sizeof highest[0]; i++)
        if (fields[i] > highest[i])
            return 0;
    return (fields[10] == 1 || fields[10] == 2) && (format == PLAIN_KEY || format == REFERENCE || format == WRAPPED_KEY);
}

static inline int kek_type_permitted(unsigned type)
{
    return type == 1 || type == 2;
}

/* The page that fields, KEY part and list make, over the front of an output with room for it; the fields are permitted. */
static inline void put_page(unsigned char *page, const unsigned long long *f, struct bytes key, struct bytes list)
{
    memset(page, 0, PAGE_HEAD);
    put(page, 2, 0x0010);
    put(page + 2, 2, PAGE_HEAD + key.len + list.len - 4);
    page[4] = (unsigned char)(32 * f[0] + f[1]);
    page[5] = (unsigned char)(64 * f[2] + 16 * f[3] + 8 * f[4] + 4 * f[5] + 2 * f[6] + f[7]);
    for (int i = 0; i < 4; i++)
        page[6 + i] = (unsigned char)f[8 + i];
    put(page + 18, 2, key.len);
    memcpy(page + PAGE_HEAD, key.at, key.len);
    memcpy(page + PAGE_HEAD + key.len, list.at, list.len);
}

/* KEY part, list; and the fields. */
static inline int page_write(struct bytes *w, const unsigned long long *fields, struct bytes out, unsigned long long *n)
{
    struct bytes key = w[0], list = w[1];
    unsigned format = format_of(fields);
    unsigned long long count;
    uint64_t total = PAGE_HEAD + (uint64_t)key.len + list.len;
    if (list_check(list, 0, &count) != 0 || !key_fits(format, key))
        return 2;
    if (!fields_permitted(fields) || (format == WRAPPED_KEY && !kek_type_permitted(two(key.at))))
        return 3;
    if (total > PAGE_MAX || (format != PLAIN_KEY && page_name(format, key).len > NAME_LONGEST))
        return 4;
    if (out.len < total)
        return 5;
    if (format == WRAPPED_KEY && key.len != WRAPPED_HEAD + page_name(format, key).len + PAGE_WRAPPED)
        return 8;
    put_page(out.at, fields, key, list);
    *n = total;
    return 0;
}

/* Table, identifier, key, list; the fields and the KEK type. */
static inline int page_write_wrapped(struct bytes *w, const unsigned long long *fields, unsigned type, struct bytes out,
                                     unsigned long long *n)
{
    struct bytes identifier = w[1], key = w[2], list = w[3], part;
    const unsigned char *row;
    unsigned long long count;
    uint64_t total = PAGE_HEAD + WRAPPED_HEAD + (uint64_t)identifier.len + PAGE_WRAPPED + list.len;
    if (table_bad(w[0]))
        return 1;
    if (key.len != PAGE_KEY || identifier.len == 0 || list_check(list, 0, &count) != 0)
        return 2;
    if (!fields_permitted(fields) || format_of(fields) != WRAPPED_KEY || !kek_type_permitted(type))
        return 3;
    if (identifier.len > NAME_LONGEST || total > PAGE_MAX)
        return 4;
    if (out.len < total)
        return 5;
    row = row_for(w[0], type, identifier.at, identifier.len);
    if (!row)
        return 6;
    part = room_for(WRAPPED_HEAD + identifier.len + PAGE_WRAPPED);
    put(part.at, 2, type), put(part.at + 2, 2, identifier.len);
    memcpy(part.at + WRAPPED_HEAD, identifier.at, identifier.len);
    must(key_wrap(1, row + 40, key.at, part.at + WRAPPED_HEAD + identifier.len), "wrap");
    put_page(out.at, fields, part, list);
    free(part.at);
    *n = total;
    return 0;
}

/* Where the list begins; of format 04h the KEK type, and where the identifier begins and ends; of any other three zeros. */
static inline int page_parts(struct bytes page, unsigned long long *at)
{
    unsigned long long read[PAGE_FIELDS];
    int number = page_read(page, read), wrapped;
    if (number != 0)
        return number;
    wrapped = page.at[9] == WRAPPED_KEY;
    at[0] = PAGE_HEAD + read[12];
    at[1] = wrapped ? two(page.at + PAGE_HEAD) : 0;
    at[2] = wrapped ? PAGE_HEAD + WRAPPED_HEAD : 0;
    at[3] = wrapped ? PAGE_HEAD + WRAPPED_HEAD + get(page.at + PAGE_HEAD + 2, 2) : 0;
    return 0;
}

#endif
