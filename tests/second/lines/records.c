/*
 * Lines of calls on records: boundary lengths of text, associated data and name; rooms; every refusal alone and beside
 * every other; names that begin alike; tables of 0 to 65 rows; keys, uses and data that are another's. The records
 * that are opened are made by the second program's own sealing. Inputs come from a seed, which is printed.
 */
#include "rows.h"

/* Boundary lengths, sealed and opened. */

static void both_ways(const struct row *r, size_t n, size_t a)
{
    struct bytes aad = some(a), record = record_by(r, aad, n);
    seals("length", keys, r->name, some(IV), aad, some(n), record.len);
    opens_and_verifies("length", keys, record, aad, n);
    checks("length", record);
}

static void lengths(unsigned mode)
{
    static const size_t texts[] = { 0, 1, 15, 16, 17, 31, 32, 33 }, longer[] = { 1023, 1024, 1025, 2047, 2048, 4096, 65535, 65536, 65537, 1048575, 1048576 };
    static const size_t datas[] = { 0, 1, 15, 16, 17, 4095, 4096, 4097 }, names[] = { 0, 1, 31, 33, 34, 255, 256, 65536 };
    for (int k = 0; k < 4; k++)
        for (size_t i = 0; i < COUNT(texts); i++)
            for (size_t j = 0; j < COUNT(datas); j++)
                both_ways(&rows[4 * (mode - 1) + k], texts[i], datas[j]);
    for (size_t i = 0; i < COUNT(longer); i++)
        both_ways(&rows[4 * (mode - 1) + (i + 2) % 4], longer[i], i % 2 ? 20 : 0);
    /* names of no row, the longer ones after a whole name of 32 bytes */
    for (size_t i = 0; i < COUNT(names); i++) {
        const struct row *longest = &rows[4 * (mode - 1) + 3];
        struct bytes extra = names[i] > 32 ? some(names[i] - 32) : nothing;
        struct row r = data_row(names[i] > 32 ? joined(longest->name, extra) : some(names[i]), longest->key, mode);
        struct bytes record = record_by(&r, nothing, 3);
        seals("name-length", keys, r.name, some(IV), nothing, some(3), record.len);
        opens_and_verifies("name-length", keys, record, nothing, 3);
        checks("name-length", record);
    }
}

static void rooms(unsigned mode)
{
    static const size_t texts[] = { 0, 1, 16, 33, 4096 };
    const struct row *r = row_of(mode);
    for (size_t i = 0; i < COUNT(texts); i++) {
        size_t n = texts[i], total = 52 + r->name.len + n;
        struct bytes aad = some(9), plain = some(n), record = record_by(r, aad, n);
        size_t outs[] = { 0, n, n + 16, total - 1, total, total + 1, total + 3 }, ins[] = { 0, n ? n - 1 : 0, n, n + 1, n + 3 };
        for (size_t j = 0; j < COUNT(outs); j++)
            seals("room", keys, r->name, some(IV), aad, plain, outs[j]);
        for (size_t j = 0; j < COUNT(ins); j++)
            opens("room", keys, record, aad, ins[j]);
        verifies("room", keys, record, aad);
    }
}

/* Refusals: each choice of what is wrong with each argument. */

static struct bytes broken_table(void)
{
    return changed(keys, keys.len - 72 + 7, 1);
}

static void seal_refused(unsigned mode)
{
    struct bytes tables[] = { keys, broken_table() }, ivs[] = { some(IV), some(11), some(13), nothing };
    struct bytes datas[] = { some(20), some(4097) }, plain = some(33), wide = some(PLAIN_MAX + 1);
    struct bytes names[] = { row_of(mode)->name, nothing, some(33), some(6), kek->name };
    for (size_t t = 0; t < 2; t++)
        for (size_t m = 0; m < COUNT(names); m++)
            for (size_t i = 0; i < COUNT(ivs); i++)
                for (size_t a = 0; a < 2; a++) {
                    size_t total = 52 + names[m].len + plain.len, outs[] = { total, total - 1, 0 };
                    for (size_t o = 0; o < 3; o++)
                        seals("seal-refused", tables[t], names[m], ivs[i], datas[a], plain, outs[o]);
                }
    /* the text too long, alone and beside each other flaw */
    for (size_t m = 0; m < COUNT(names); m++)
        seals("seal-refused", keys, names[m], ivs[0], datas[0], wide, 52 + names[m].len + wide.len);
    if (mode == 2)
        return;
    seals("seal-refused", tables[1], names[0], ivs[0], datas[0], wide, 57 + wide.len);
    seals("seal-refused", keys, names[0], ivs[2], datas[0], wide, 57 + wide.len);
    seals("seal-refused", keys, names[0], ivs[0], datas[1], wide, 57 + wide.len);
    seals("seal-refused", keys, names[0], ivs[0], datas[0], wide, 56 + wide.len);
}

static void open_refused(unsigned mode)
{
    struct bytes tables[] = { keys, broken_table() }, datas[] = { some(20), some(4097) };
    struct row named[] = { *row_of(mode), data_row(some(6), some(32), mode), *kek, *row_of(3 - mode),
        data_row(some(33), some(32), mode) };
    unsigned unknown = mode == 1 ? 0 : 3;
    size_t n = 33, ins[] = { n, n - 1, 0 };
    for (size_t m = 0; m < COUNT(named); m++)
        for (unsigned how = 0; how < 8; how++)
            for (size_t a = 0; a < 2; a++) {
                /* an unknown mode, a byte 3 that is not zero, a wrong tag; the tag is right over the others */
                struct bytes front = front_of(how & 1 ? unknown : mode, named[m].name, n), record;
                front.at[3] = how >> 1 & 1;
                record = record_of(mode == 1, named[m].key, front, some(IV), datas[a], some(n));
                record.at[record.len - 1] ^= (unsigned char)(how >> 2);
                checks("open-refused", record);
                for (size_t t = 0; t < 2; t++) {
                    for (size_t o = 0; o < 3; o++)
                        opens("open-refused", tables[t], record, datas[a], ins[o]);
                    verifies("open-refused", tables[t], record, datas[a]);
                }
            }
    /* the count too large, all else matching: alone and beside each other flaw */
    struct bytes wide = record_by(row_of(mode), datas[0], PLAIN_MAX + 1);
    checks("wide", wide);
    opens_and_verifies("wide", keys, wide, datas[0], PLAIN_MAX + 1);
    checks("wide", changed(wide, 2, mode | 4));
    checks("wide", changed(wide, 3, 1));
    if (mode == 2)
        return;
    opens_and_verifies("wide", tables[1], wide, datas[0], PLAIN_MAX + 1);
    opens_and_verifies("wide", keys, changed(wide, 3, 1), datas[0], PLAIN_MAX + 1);
    opens_and_verifies("wide", keys, changed(wide, 2, 4), datas[0], PLAIN_MAX + 1);
    opens_and_verifies("wide", keys, wide, datas[1], PLAIN_MAX + 1);
    opens("wide", keys, wide, datas[0], 16);
    opens_and_verifies("wide", keys, changed(wide, HEADER, 128), datas[0], PLAIN_MAX + 1);
}

/* Empty strings and junk in every argument. */
static void junk(void)
{
    struct bytes tables[] = { keys, broken_table(), nothing, cut(keys, 7), some(80) };
    struct bytes strings[] = { nothing, some(1), some(12), some(23), some(24), some(100), some(4097) };
    for (size_t t = 0; t < COUNT(tables); t++)
        for (size_t i = 0; i < COUNT(strings); i++)
            for (size_t j = 0; j < COUNT(strings); j++) {
                opens_and_verifies("junk", tables[t], strings[i], strings[j], 9 * (j % 2));
                seals("junk", tables[t], strings[i], strings[j], strings[i], strings[j], 9 * (j % 2));
            }
    for (size_t i = 0; i < COUNT(strings); i++)
        checks("junk", strings[i]);
}

/* Which row answers. */

static void tapes(unsigned mode)
{
    static const char names[4][7] = { "TAPE1", "TAPE10", "TAPE1\0", "TAPE" };
    static const size_t lens[] = { 5, 6, 6, 4 };
    struct row all[4];
    for (unsigned i = 0; i < 4; i++) {
        struct bytes name = { (unsigned char *)names[i], lens[i] };
        all[i] = data_row(name, some(32), mode);
    }
    for (unsigned have = 0; have < 32; have++) {
        struct row some_of[4];
        unsigned count = 0;
        for (unsigned i = 0; i < 4; i++)
            if (have >> i & 1)
                some_of[count++] = all[have & 16 ? 3 - i : i];
        for (unsigned i = 0; i < 4; i++) {
            struct bytes table = table_of(some_of, count), aad = some(2);
            seals("tape", table, all[i].name, some(IV), aad, some(4), 64);
            opens_and_verifies("tape", table, record_by(&all[i], aad, 4), aad, 6);
        }
    }
}

static void tables(void)
{
    static const unsigned counts[] = { 0, 1, 2, 63, 64, 65 };
    struct row all[66];
    for (unsigned i = 0; i < 66; i++) {
        all[i] = row_as(some(1 + i % 32), some(32), i % COUNT(kinds));
        all[i].name.at[0] = (unsigned char)i;
    }
    for (size_t c = 0; c < COUNT(counts); c++) {
        struct bytes table = table_of(all, counts[c]), empty = nothing;
        for (unsigned i = 0; i < 66; i += i < 4 || i > 57 ? 1 : 9) {
            seals("rows", table, all[i].name, some(IV), empty, some(7), 59 + all[i].name.len);
            opens_and_verifies("rows", table, record_by(&all[i], empty, 7), empty, 7);
        }
    }
}

static void another(unsigned mode)
{
    const struct row *r = row_of(mode), *kin = r + 1, *other = row_of(3 - mode);
    struct bytes aad = some(9), record = record_by(r, aad, 20);
    struct row mixed[] = { data_row(r->name, kin->key, mode), data_row(kin->name, r->key, mode),
        data_row(r->name, r->key, 3 - mode), data_row(other->name, other->key, mode), data_row(kek->name, kek->key, mode) };
    for (size_t i = 0; i < COUNT(mixed); i++)
        opens_and_verifies("another", keys, record_by(&mixed[i], aad, 20), aad, 20);
    for (unsigned kind = 0; kind < COUNT(kinds); kind++) {
        struct row row = row_as(r->name, r->key, kind);
        seals("another", table_of(&row, 1), r->name, some(IV), aad, some(20), 80);
        opens_and_verifies("another", table_of(&row, 1), record, aad, 20);
    }
    for (unsigned bit = 0; bit < 256; bit += 5) {
        struct row row = data_row(r->name, changed(r->key, bit / 8, 1u << bit % 8), mode);
        opens_and_verifies("another", table_of(&row, 1), record, aad, 20);
    }
    for (unsigned bit = 0; bit < 72; bit++)
        opens_and_verifies("data", keys, record, changed(aad, bit / 8, 1u << bit % 8), 20);
    for (size_t len = 0; len <= 9; len++)
        opens_and_verifies("data", keys, record, cut(aad, len), 20);
    opens_and_verifies("data", keys, record, joined(aad, cut(record, 1)), 20);
}

/* Any row, any lengths, and now and then a flaw or two. */
static void mixed(void)
{
    for (int i = 0; i < 500; i++) {
        const struct row *r = &rows[byte() % ROWS];
        size_t n = byte(), a = byte();
        struct bytes aad = some(a), record = record_by(r, aad, n), table = keys;
        if (byte() < 64)
            record = changed(record, byte() % record.len, 1u << byte() % 8);
        if (byte() < 16)
            table = changed(keys, byte() % keys.len, 1u << byte() % 8);
        seals("mixed", table, byte() < 16 ? some(byte()) : r->name, some(byte() < 16 ? byte() : IV), aad, some(n),
              400 - byte() % 100);
        opens_and_verifies("mixed", table, record, aad, n ? n + 16 - byte() % 18 : byte());
    }
}

int main(int argc, char **argv)
{
    begin(argc, argv);
    for (unsigned mode = 1; mode <= 2; mode++) {
        lengths(mode);
        rooms(mode);
        seal_refused(mode);
        open_refused(mode);
        tapes(mode);
        another(mode);
    }
    tables();
    junk();
    mixed();
    return 0;
}
