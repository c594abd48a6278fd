/*
 * Key pages, read anew from document 01, "Key page" and "Numbers given back", and document 02, No. 2 and No. 7. Every
 * length is taken in 64 bits.
 */
#ifndef PAGES_H
#define PAGES_H

#include "../ciphers.h"
#include "keytable.h"
#include "lists.h"

#define PAGE_MAX 4096
#define PAGE_HEAD 20
#define PAGE_FIELDS 14
#define PAGE_KEY 32
#define PAGE_WRAPPED 40
#define REFERENCE_LEAST 9

enum { PLAIN_KEY = 0x00, REFERENCE = 0x01, WRAPPED_KEY = 0x04 };

/* The KEY part, of an accepted page or one whose KEY LENGTH was tested. */
static inline struct bytes page_key(struct bytes page)
{
    struct bytes key = { page.at + PAGE_HEAD, get(page.at + 18, 2) };
    return key;
}

/* The name in a KEY part that keeps its layout: the reference, or the identifier. */
static inline struct bytes page_name(unsigned format, struct bytes key)
{
    struct bytes identifier;
    if (format == REFERENCE)
        return key;
    identifier.at = key.at + 4, identifier.len = get(key.at + 2, 2);
    return identifier;
}

/* The type of the row that such a KEY part asks for: a reference's is that of data, a wrapped key's its KEK type. */
static inline unsigned page_type(unsigned format, struct bytes key)
{
    return format == REFERENCE ? DATA_TYPE : two(key.at);
}

/* Whether a KEY part keeps the layout of its format, apart from the KEK type and the maximum; of an unknown format, all do. */
static inline int key_fits(unsigned format, struct bytes key)
{
    switch (format) {
    case PLAIN_KEY: return key.len == PAGE_KEY;
    case REFERENCE: return key.len >= REFERENCE_LEAST;
    case WRAPPED_KEY: return key.len >= 4 && get(key.at + 2, 2) != 0 && 4 + get(key.at + 2, 2) <= key.len;
    }
    return 1;
}

/* The list is opened without a choice: a reserved type breaks the layout as any other flaw of the list does. */
static inline int page_fits(struct bytes page, unsigned long long *count)
{
    struct bytes key, list;
    if (page.len < PAGE_HEAD || get(page.at, 2) != 0x0010 || get(page.at + 2, 2) + 4 != page.len)
        return 0;
    if ((page.at[4] & 0x1e) != 0 || get(page.at + 10, 8) != 0)
        return 0;
    key = page_key(page);
    if (PAGE_HEAD + key.len > page.len)
        return 0;
    list.at = key.at + key.len, list.len = page.len - PAGE_HEAD - key.len;
    return list_check(list, 0, count) == 0 && key_fits(page.at[9], key);
}

/* The fields, the format and the KEK type of a page that keeps its layout. */
static inline int page_permitted(struct bytes page)
{
    const unsigned char *p = page.at;
    unsigned kek_type;
    if (p[4] >> 5 > 2 || p[6] > 2 || p[7] > 3 || p[8] < 1 || p[8] > 2)
        return 0;
    if (p[9] != WRAPPED_KEY)
        return p[9] == PLAIN_KEY || p[9] == REFERENCE;
    kek_type = two(page_key(page).at);
    return kek_type == 1 || kek_type == 2;
}

static inline int page_read(struct bytes page, unsigned long long *fields)
{
    unsigned long long count = 0;
    if (!page_fits(page, &count))
        return 2;
    if (!page_permitted(page))
        return 3;
    if (page.len > PAGE_MAX)
        return 4;
    if (page.at[9] != PLAIN_KEY && page_name(page.at[9], page_key(page)).len > NAME_LONGEST)
        return 4;
    fields[0] = page.at[4] >> 5;
    fields[1] = page.at[4] & 1;
    fields[2] = page.at[5] >> 6;
    fields[3] = page.at[5] >> 4 & 3;
    for (int flag = 0; flag < 4; flag++)
        fields[4 + flag] = page.at[5] >> (3 - flag) & 1;
    for (int i = 0; i < 4; i++)
        fields[8 + i] = page.at[6 + i];
    fields[12] = get(page.at + 18, 2);
    fields[13] = count;
    return 0;
}

/* Table, page. */
static inline int page_load(struct bytes *w, struct bytes out, unsigned long long *fields)
{
    unsigned long long read[PAGE_FIELDS];
    unsigned char key[PAGE_KEY];
    struct bytes part, name;
    const unsigned char *row;
    unsigned format;
    int number;
    if (table_bad(w[0]))
        return 1;
    number = page_read(w[1], read);
    if (number != 0)
        return number;
    if (out.len < PAGE_KEY)
        return 5;
    format = w[1].at[9], part = page_key(w[1]);
    if (format == PLAIN_KEY) {
        memcpy(key, part.at, PAGE_KEY);
    } else {
        name = page_name(format, part);
        row = row_for(w[0], page_type(format, part), name.at, name.len);
        if (!row)
            return 6;
        if (format == REFERENCE && row[1] != w[1].at[8])
            return 7;
        if (format == REFERENCE)
            memcpy(key, row + 40, PAGE_KEY);
        else if (part.len - 4 - name.len != PAGE_WRAPPED)
            return 8;
        else if (!key_wrap(0, row + 40, name.at + name.len, key))
            return 9;
    }
    memcpy(out.at, key, PAGE_KEY);
    memcpy(fields, read, sizeof read);
    return 0;
}

#endif
