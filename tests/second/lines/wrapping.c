/*
 * Lines of calls on pages whose key is wrapped as they are written: fields at every boundary, and every format but 04h; KEK
 * types; keys, identifiers, lists, pages and rooms at their boundaries; rows of one name, names that begin alike, and other
 * rows in the table; tables that are broken; every choice of flaws at once; and any pages, written, read, taken apart, loaded
 * by the same table, and written again from their wrapped part. After each line stands its answer as documents 01 and 02
 * have it: `#= NAME NUMBER`, the output and the numbers stored, as they are after the call. Inputs come from a seed, which
 * is printed.
 */
#include "writings.h"

/* ---- fields and types */

/* 04h alone is taken of the formats. */
static void with_value(unsigned field, unsigned long long value)
{
    struct writing w = any_writing(WRAPPED_KEY);
    w.field[field] = value;
    wraps("wrap-field", &w, permitted(field, value) && (field != FORMAT || value == WRAPPED_KEY) ? 0 : 3);
}

static void fields(void)
{
    for (unsigned field = 0; field < CHOSEN; field++)
        each_value(field, with_value);
    for (unsigned format = 0; format < 256; format++)
        with_value(FORMAT, format);
    for (unsigned set = 0; set < 3 * 512; set += 5) {
        struct writing w = any_writing(WRAPPED_KEY);
        w.field[0] = set / 512, w.field[1] = set / 256 % 2, w.field[2] = set / 64 % 4, w.field[3] = set / 16 % 4;
        for (unsigned i = 0; i < 4; i++)
            w.field[4 + i] = set >> (3 - i) & 1;
        wraps("wrap-bits", &w, 0);
    }
}

/* A data row and key-encrypting keys of both types have the name: type 0 finds none of them. */
static void types(void)
{
    static const unsigned sought[] = { 0, 1, 2, 3, 4, 0x80, 0xff, 0x100, 0x101, 0x102, 0x200, 0x201, 0x202, 0x8000, 0x8001, 0x8002, 0xfffe, 0xffff };
    struct row row[] = { data_row(some(12), some(32), 2), keks[1], keks[2] };
    for (unsigned i = 1; i < 3; i++)
        row[i].name = row[0].name;
    for (unsigned have = 0; have < 8; have++) {
        struct row in_table[3];
        unsigned count = 0;
        for (unsigned i = 0; i < 3; i++)
            if (have >> i & 1)
                in_table[count++] = row[i];
        for (size_t i = 0; i < COUNT(sought); i++) {
            struct writing w = any_writing(WRAPPED_KEY);
            unsigned type = sought[i];
            w.type = type, w.identifier = row[0].name, w.table = table_of(in_table, count);
            w.kek = type == 1 || type == 2 ? row[type].key : nothing;
            wraps("wrap-kek-type", &w, type != 1 && type != 2 ? 3 : have >> type & 1 ? 0 : 6);
        }
    }
}

/* ---- lengths */

static void keys_and_names(void)
{
    static const size_t lens[] = { 0, 1, 8, 9, 16, 24, 31, 32, 33, 34, 40, 41, 64, 255, 256, 256 + 9, 256 + 32, 4032, 65535, 65536, 65536 + 9, 65536 + 32 };
    for (size_t i = 0; i < COUNT(lens); i++) {
        size_t n = lens[i];
        struct writing key = any_writing(WRAPPED_KEY), name = any_writing(WRAPPED_KEY), longer = name;
        struct row row = kek_row(some(n), name.kek, name.type);
        key.key = some(n);
        wraps("wrap-key", &key, n == 32 ? 0 : 2);
        name.identifier = row.name;
        name.table = n > 0 && n <= 32 ? table_of(&row, 1) : holders;
        wraps("wrap-name", &name, n == 0 ? 2 : n > 32 ? 4 : 0);
        name.more = -1;
        wraps("wrap-name-5", &name, n == 0 ? 2 : n > 32 ? 4 : 5);
        /* what begins as the row's name, and has so many bytes more */
        longer.identifier = joined(longer.identifier, some(n));
        wraps("wrap-longer", &longer, n == 0 ? 0 : longer.identifier.len > 32 ? 4 : 6);
    }
}

static void lists(void)
{
    struct bytes list = list_with(3);
    struct writing w = any_writing(WRAPPED_KEY);
    for (unsigned type = 0; type < 256; type++) {
        w.list = descriptor(type, some(type % 3));
        wraps("wrap-type", &w, type >= 0x04 && type <= 0xbf ? 2 : 0);
    }
    for (unsigned way = 0; way < BROKEN_LISTS; way++) {
        w.list = broken_list(way);
        wraps("wrap-broken", &w, 2);
    }
    for (size_t n = 0; n <= list.len; n++) {
        w.list = cut(list, n);
        wraps("wrap-cut", &w, n % 7 ? 2 : 0);
    }
}

/* Pages about the maximum, and about what PAGE LENGTH can say, with names of one byte and of 32; and rooms. */
static void long_pages(void)
{
    static const size_t lens[] = { 4095, 4096, 4097, 4098, 65535, 65536, 65539, 65540, 65541, 65540 + 73, 65536 + 4096, 131072 + 66 };
    for (size_t i = 0; i < COUNT(lens); i++)
        for (unsigned longest = 0; longest < 2; longest++) {
            struct writing w = any_writing(WRAPPED_KEY);
            struct row row = kek_row(some(longest ? 32 : 1), w.kek, w.type);
            w.identifier = row.name, w.table = table_of(&row, 1);
            w.list = list_as_long(lens[i] - PAGE_HEAD - 44 - row.name.len);
            wraps("wrap-long", &w, lens[i] <= 4096 ? 0 : 4);
            w.table = table_of(NULL, 0);
            wraps("wrap-long-6", &w, lens[i] <= 4096 ? 6 : 4);
            w.more = -1;
            wraps("wrap-long-5", &w, lens[i] <= 4096 ? 5 : 4);
            w.more = -1000000, w.list.len--;
            wraps("wrap-long-2", &w, 2);
        }
}

static void rooms(void)
{
    static const long more[] = { -10000, -60, -44, -41, -40, -39, -21, -20, -4, -2, -1, 0, 1, 2, 40, 4096 };
    for (unsigned descriptors = 0; descriptors < 4; descriptors++)
        for (size_t i = 0; i < COUNT(more); i++) {
            struct writing w = any_writing(WRAPPED_KEY);
            w.list = list_with(descriptors), w.more = more[i];
            wraps("wrap-room", &w, more[i] < 0 ? 5 : 0);
            w.identifier = some(9);
            wraps("wrap-room-6", &w, more[i] < 0 ? 5 : 6);
        }
}

/* ---- rows */

/* Names that begin alike, or have a zero byte more, of both types: each choice of rows, and each sought in it. */
static void tapes(void)
{
    static const char names[4][7] = { "TAPE1", "TAPE10", "TAPE1\0", "TAPE" };
    static const size_t lens[] = { 5, 6, 6, 4 };
    struct row all[8], data[4];
    for (unsigned i = 0; i < 8; i++) {
        struct bytes name = { (unsigned char *)names[i / 2], lens[i / 2] };
        all[i] = kek_row(name, some(32), 1 + i % 2);
        data[i / 2] = data_row(name, some(32), 1 + i % 2);
    }
    for (unsigned have = 0; have < 256; have++) {
        struct row in_table[12];
        unsigned count = 0;
        for (unsigned i = 0; i < 8; i++)
            if (have >> i & 1)
                in_table[count++] = all[i];
        for (unsigned i = 0; i < 4 && have % 3 == 0; i++)
            in_table[count++] = data[i];
        for (unsigned i = 0; i < 8; i++) {
            struct writing w = any_writing(WRAPPED_KEY);
            w.identifier = all[i].name, w.type = all[i].type, w.kek = all[i].key;
            w.table = table_of(in_table, count);
            wraps("wrap-tape", &w, have >> i & 1 ? 0 : 6);
        }
    }
}

/* The row alone, and at each place among as many others as there can be; and one row too many. */
static void other_rows(void)
{
    static const unsigned counts[] = { 1, 2, 3, 63, 64, 65 };
    struct row all[66];
    for (unsigned i = 0; i < 66; i++) {
        all[i] = row_as(some(9 + i % 24), some(32), i % COUNT(kinds));
        all[i].name.at[0] = (unsigned char)i;
    }
    for (size_t c = 0; c < COUNT(counts); c++)
        for (unsigned i = 0; i < counts[c]; i += i < 3 || i > 56 ? 1 : 9) {
            struct row row[66];
            struct writing w = any_writing(WRAPPED_KEY);
            memcpy(row, all, sizeof all);
            row[i] = keks[w.type];
            w.table = table_of(row, counts[c]);
            wraps("wrap-rows", &w, counts[c] > 64 ? 1 : 0);
            w.identifier = joined(w.identifier, nothing), w.identifier.at[0] = 0xff;
            wraps("wrap-rows", &w, counts[c] > 64 ? 1 : memcmp(w.identifier.at, keks[w.type].name.at, 9) == 0 ? 0 : 6);
        }
}

/* A broken table is 1, whatever else is wrong. */
static void tables(void)
{
    struct row twice[] = { keks[1], named[2], keks[1] };
    struct bytes broken[] = { nothing, cut(holders, 7), cut(holders, 8), cut(holders, holders.len - 1), joined(holders, some(1)), some(80),
        changed(holders, 1, 2), changed(holders, 3, 1), changed(holders, 5, 1), changed(holders, 7, 1), table_of(twice, 3), with(holders, 8, 1, 0),
        with(holders, 8, 1, 33), with(holders, 9, 1, 0), with(holders, 9, 1, 4), with(holders, 10, 2, 0), with(holders, 10, 2, 3),
        with(holders, 82, 2, 1), with(holders, 12, 1, 1), with(holders, 47, 1, 1) };
    for (size_t t = 0; t < COUNT(broken); t++)
        for (unsigned set = 0; set < 64; set += set < 2 ? 1 : 7) {
            struct writing w = any_writing(WRAPPED_KEY);
            w.table = broken[t];
            w.key = set & 1 ? some(31) : w.key, w.identifier = set & 2 ? nothing : set & 4 ? some(33) : w.identifier;
            w.list = set & 8 ? broken_list((unsigned)t) : w.list, w.type = set & 16 ? 0 : w.type;
            w.more = set & 32 ? -1 : MORE, w.field[ALGORITHM] += set & 16 ? 2 : 0;
            wraps("wrap-table", &w, 1);
        }
}

/* ---- flaws */

#define FLAWED_WAYS 8

/* A table without the row: with its like of another name, or with one or both of the other types. */
static struct bytes without(const struct writing *w, unsigned way)
{
    struct row others[] = { data_row(w->identifier, w->kek, 2), kek_row(w->identifier, w->kek, 3 - w->type) };
    struct row renamed = kek_row(some(w->identifier.len), w->kek, w->type);
    return way == 0 ? table_of(&renamed, 1) : way == 3 ? table_of(others, 2) : table_of(&others[way - 1], 1);
}

/* The flaw of each number in a set, in one of eight ways: the lowest is given. */
static void flawed(unsigned set, unsigned way)
{
    static const struct {
        unsigned field;
        unsigned long long value;
    } wrong[FLAWED_WAYS] = { { FORMAT, 0 }, { FORMAT, 1 }, { FORMAT, 0x104 }, { 0, 3 }, { 1, 2 }, { 2, 4 }, { 6, 0 }, { 6, 0 } };
    static const size_t lens[FLAWED_WAYS] = { 31, 33, 0, 40, 24, 32, 32, 32 };
    struct writing w = any_writing(WRAPPED_KEY);
    unsigned number = 1;
    int has[7];
    for (unsigned i = 1; i < 7; i++)
        has[i] = set >> i & 1;
    if (has[6])
        w.table = without(&w, way % 4);
    if (has[5])
        w.more = way % 2 ? -1 : -1000000;
    if (has[4] && way % 3 == 0)
        w.identifier = joined(w.identifier, some(33 - w.identifier.len));
    else if (has[4])
        w.list = list_as_long((way == 2 ? 65541 : 4097) - PAGE_HEAD - 44 - w.identifier.len);
    if (has[3] && way >= 6)
        w.type = way == 6 ? 0 : 3;
    else if (has[3])
        w.field[wrong[way].field] = wrong[way].value;
    if (has[2])
        w.key = some(lens[way]);
    if (has[2] && way == 5)
        w.identifier = nothing;
    else if (has[2] && way > 5)
        w.list = has[4] && way % 3 ? cut(w.list, w.list.len - 1) : broken_list(way + set);
    if (has[1])
        w.table = way % 2 ? changed(w.table, 10 + way % 4, 4) : joined(w.table, some(1));
    while (number < 7 && !has[number])
        number++;
    wraps("wrap-flaws", &w, number % 7);
}

/* ---- any pages */

/* What is written is read and taken apart, and loaded by the same table and by one with the row alone; its part is carried over. */
static void any_pages(void)
{
    for (unsigned i = 0; i < 600; i++) {
        struct writing w = any_writing(WRAPPED_KEY);
        struct row row = kek_row(some(1 + i % 32), some(32), w.type);
        struct row others[] = { named[1], row, kek_row(row.name, some(32), 3 - row.type), data_row(row.name, some(32), 1 + i % 2) };
        struct bytes page;
        w.identifier = row.name, w.kek = row.key, w.table = table_of(others, i % 4 ? 4 : 2);
        w.list = i % 50 == 7 ? list_as_long(3000 + byte()) : any_page_list(100, i % 8);
        w.more = byte() % 3;
        page = wraps("wrap-any", &w, 0);
        w.part = part_by(&w);
        reads_as("wrap-any", page, &w, 0);
        loads_as("wrap-any", w.table, page, &w, w.key);
        loads_as("wrap-any", table_of(&row, 1), page, &w, w.key);
        writes("wrap-any", &w, 0);
    }
}

int main(int argc, char **argv)
{
    begin_pages(argc, argv);
    fields();
    types();
    keys_and_names();
    lists();
    long_pages();
    rooms();
    tapes();
    other_rows();
    tables();
    for (unsigned way = 0; way < FLAWED_WAYS; way++)
        for (unsigned set = 0; set < 1u << 7; set += 2)
            flawed(set, way);
    any_pages();
    return 0;
}
