/*
 * dumps SEED FOLDER: cartridge dumps, each with a key table and the text that a report over them has to print, as
 * NAME.dump, NAME.table and NAME.text in the folder; the names are listed. A text comes from how its dump was made: which
 * records were put there and by which row each was sealed, what was broken, and what follows. First the boundaries, then
 * random dumps. Inputs come from a seed, which is printed.
 */
#include "lines/made_dumps.h"

#define RANDOM_DUMPS 250

/* ---- records that are read */

static void few_and_many(void)
{
    static const size_t texts[] = { 0, 1, 15, 16, 17, 33, 600 };
    struct bytes record = record_by(&rows[1], nothing, 9);
    begin_dump(rows, 0);
    end_dump("empty");
    add(record, NONE);
    end_dump("no-rows");
    begin_dump(rows, ROWS);
    end_dump("empty");
    add(record, 1), add(record, 1);
    end_dump("twice");
    for (unsigned i = 0; i < ROWS; i++) {
        begin_dump(rows, ROWS);
        add_by(i, 10, SEALED);
        end_dump("one");
    }
    begin_dump(rows, ROWS);
    for (size_t t = 0; t < COUNT(texts); t++)
        for (unsigned i = 0; i < ROWS; i++)
            add_by(i, texts[t], SEALED);
    end_dump("many");
}

/* A record that opens by no row does not stop the reading. */
static void not_opened(unsigned mode)
{
    struct row of[] = { data_row(some(5), some(32), mode), data_row(some(5), some(32), mode) };
    struct row mixed = data_row(of[0].name, of[1].key, mode), absent = data_row(some(6), some(32), mode);
    struct bytes renamed = record_by(&of[0], nothing, 9);
    for (enum way way = SEALED; way < WAYS; way++) {
        begin_dump(rows, ROWS);
        add_each(3);
        add_by((unsigned)(row_of(mode) - rows), 20, way);
        add_each(0);
        end_dump("way");
    }
    begin_dump(rows, ROWS);
    add_each(0), add(record_by(&absent, nothing, 5), NONE), add_each(1);
    end_dump("absent");
    /* with the name of the one row and the key of the other, the name changed after sealing or not */
    memcpy(renamed.at + HEADER, of[1].name.at, 5);
    begin_dump(of, 2);
    add_each(1), add(renamed, NONE), add(record_by(&mixed, nothing, 9), NONE), add_each(0);
    end_dump("another-row");
}

/*
 * A row of data and key-encrypting keys of both types with one name, in each order and some left out; each with its own key,
 * or all with that of the row of data.
 */
static void one_name(unsigned mode)
{
    static const unsigned orders[][3] = { { 0, 1, 2 }, { 0, 2, 1 }, { 1, 0, 2 }, { 1, 2, 0 }, { 2, 0, 1 }, { 2, 1, 0 } };
    struct bytes name = some(2), key = some(32);
    for (unsigned how = 0; how < 2 * 3 * COUNT(orders); how++) {
        const unsigned *order = orders[how / 6], count = 1 + how / 2 % 3;
        struct row of[] = { data_row(name, key, mode), kek_row(name, some(32), 1), kek_row(name, some(32), 2) }, in_order[3];
        unsigned place = NONE;
        for (unsigned i = 0; i < count; i++) {
            in_order[i] = of[order[i]];
            if (order[i] == 0)
                place = i;
            else if (how % 2)
                in_order[i].key = key;
        }
        begin_dump(in_order, count);
        add(record_by(&of[0], nothing, 4), place);
        for (unsigned i = 1; i < 3; i++)
            add(record_by(&of[i], nothing, i), NONE);
        add(record_by(&of[0], nothing, 0), place);
        end_dump("one-name");
    }
}

/* Names that begin alike, and one with a zero byte more: each choice of rows, in both orders, and records by all four. */
static void tapes(void)
{
    static const char names[4][7] = { "TAPE1", "TAPE10", "TAPE1\0", "TAPE" };
    static const size_t lens[] = { 5, 6, 6, 4 };
    struct row all[4];
    for (unsigned i = 0; i < 4; i++) {
        struct bytes name = { (unsigned char *)names[i], lens[i] };
        all[i] = data_row(name, some(32), 1 + i % 2);
    }
    for (unsigned have = 0; have < 32; have++) {
        struct row of[4];
        unsigned count = 0, place[4];
        for (unsigned k = 0; k < 4; k++) {
            unsigned i = have & 16 ? 3 - k : k;
            place[i] = have >> i & 1 ? count : NONE;
            if (have >> i & 1)
                of[count++] = all[i];
        }
        begin_dump(of, count);
        for (unsigned i = 0; i < 8; i++)
            add(record_by(&all[i % 4], nothing, i), place[i % 4]);
        end_dump("tape");
    }
}

/* ---- where reading stops */

/* What is no record, at the start or between records: those after it are tail, though they could be read. */
static void between(const char *about, struct bytes other)
{
    begin_dump(rows, ROWS);
    if (lines % 3)
        add_each(2);
    add_other(other);
    add_each(1);
    end_dump(about);
}

static struct bytes record_with(const struct row *r, struct bytes front, size_t n)
{
    return record_of(r->use == 1, r->key, front, some(IV), nothing, some(n));
}

/* Document 01's 2, 3 and 4, with the tag right over the header. */
static void broken(unsigned mode)
{
    static const unsigned modes[] = { 0, 3, 4, 0x81, 0xff }, names[] = { 0, 33, 34, 300 };
    const struct row *r = row_of(mode);
    struct bytes front = front_of(mode, r->name, 7);
    /* each byte but the mode changed, of k and n too, while what follows from them stays */
    for (size_t at = 0; at < HEADER; at++)
        for (unsigned by = 1; by <= 128 && at != 2; by += 127)
            between("header", record_with(r, changed(front, at, by), 7));
    for (size_t i = 0; i < COUNT(modes); i++)
        between("mode", record_with(r, front_of(modes[i], r->name, 7), 7));
    for (size_t i = 0; i < COUNT(names); i++)
        between("name", record_with(r, front_of(mode, some(names[i]), 7), 7));
}

/* An end past the dump, by a byte and by much; and ends that sums of 32 and of 16 bits would put into it. */
static void past_the_end(unsigned mode)
{
    static const uint64_t more[] = { 1, 2, 16, 28, 1000, 65535, 65536, PLAIN_MAX - 7, PLAIN_MAX - 6, 0x7ffffff8, 0x7ffffff9,
        0xfffffff8 };
    const struct row *r = row_of(mode);
    size_t k = r->name.len, less[] = { 1, 12, 16, 28, LEAST + k - HEADER };
    for (size_t i = 0; i < COUNT(more); i++) {
        struct bytes record = record_with(r, front_of(mode, r->name, 7 + more[i]), 7);
        begin_dump(rows, ROWS);
        add_each(0), add_other(record);
        end_dump("past-the-end");
        if (more[i] >= 65535)
            between("far-past-the-end", record);
    }
    for (size_t i = 0; i < COUNT(less); i++)
        between("narrow", cut(record_with(r, front_of(mode, r->name, 0x100000000 - less[i]), 0), LEAST + k - less[i]));
    between("narrow", cut(front_of(mode, some(0xffff), 1), LEAST));
}

/* What follows the last record, or stands alone: a part of a record, zeros, or anything. */
static void tails(unsigned mode)
{
    static const size_t lens[] = { 1, 2, 23, 24, 25, 51, 52, 53, 54, 600, 1049, 1055, 1056 };
    struct bytes whole = record_by(row_of(mode), nothing, 1000), zeros = room_for(whole.len);
    memset(zeros.at, 0, zeros.len);
    for (size_t i = 0; i < COUNT(lens); i++) {
        struct bytes ends[] = { cut(whole, lens[i]), cut(zeros, lens[i]), some(lens[i]) };
        for (size_t j = 0; j < COUNT(ends); j++) {
            begin_dump(rows, ROWS);
            if (i % 3 != j)
                add_each(0);
            add_other(ends[j]);
            end_dump("tail");
        }
    }
}

/* What is left of a string from a place on. */
static struct bytes rest_of(struct bytes b, size_t from)
{
    b.at += from, b.len -= from;
    return b;
}

/*
 * A byte lost, or one more between two records; and an n of one more or less than was sealed, which offsets and tag follow.
 * The header gives the end: a record takes the next one's first byte, or leaves a byte.
 */
static void shifted(unsigned mode)
{
    const struct row *r = row_of(mode), *other = row_of(3 - mode);
    struct bytes first = record_by(r, nothing, 7), next = record_by(other, nothing, 9);
    struct bytes lost = joined(cut(first, 45), rest_of(first, 46)), more = record_with(r, front_of(mode, r->name, 8), 7);
    struct bytes less = record_with(r, front_of(mode, r->name, 6), 7), takes[] = { lost, more };
    for (size_t i = 0; i < COUNT(takes); i++) {
        begin_dump(rows, ROWS);
        add_each(0), add(joined(takes[i], cut(next, 1)), NONE), add_other(rest_of(next, 1)), add_each(0);
        end_dump("shifted");
    }
    begin_dump(rows, ROWS);
    add_each(0), add(cut(less, less.len - 1), NONE), add_other(rest_of(less, less.len - 1)), add_each(0);
    end_dump("shifted");
    between("shifted", some(1));
}

/* A record by a row, which has these bytes for its ciphertext: a counter mode's pad for an IV is the same for every text. */
static struct bytes record_around(const struct row *r, struct bytes inside)
{
    struct bytes front = front_of(r->use, r->name, inside.len), iv = some(IV), plain = joined(inside, nothing), pad;
    memset(plain.at, 0, plain.len);
    pad = rest_of(record_of(r->use == 1, r->key, front, iv, nothing, plain), front.len + IV);
    for (size_t i = 0; i < plain.len; i++)
        plain.at[i] = inside.at[i] ^ pad.at[i];
    return record_of(r->use == 1, r->key, front, iv, nothing, plain);
}

/* Records that lie in another's ciphertext are not read, whether that one is read or not. */
static void nested(unsigned mode)
{
    struct bytes inside = joined(record_by(&rows[0], nothing, 3), record_by(&rows[6], nothing, 0));
    struct bytes record = record_around(row_of(mode), inside);
    begin_dump(rows, ROWS);
    add_each(0), add(record, (unsigned)(row_of(mode) - rows)), add_each(1);
    end_dump("nested");
    between("nested", changed(record, 3, 1));
}

/* ---- the longest dumps, and what is refused */

static void end_full(const char *about)
{
    if (dump.len != DUMP_LONGEST)
        fail("not the longest", about);
    end_dump(about);
    append(some(1));
    end_refused("too-long", table_of(dump.row, dump.rows), 4);
}

/* As many records as a dump can hold, all by one row or by each in turn; then records that fill it; and no record. */
static void full(const struct row *row)
{
    size_t least = LEAST + 1, most = DUMP_LONGEST / least;
    for (unsigned turn = 0; turn < 2; turn++) {
        begin_dump(row, ROWS_MOST);
        for (unsigned i = 0; i < most; i++)
            add_by(turn ? i % ROWS_MOST : 40, 0, SEALED);
        add_other(cut(record_by(row, nothing, 0), DUMP_LONGEST - dump.len));
        end_full("full");
    }
    begin_dump(row, ROWS_MOST);
    for (unsigned i = 1; i < most; i++)
        add_by(i * i % ROWS_MOST, 0, (enum way)(i % WAYS));
    add_by(5, DUMP_LONGEST - dump.len - least, SEALED);
    end_full("filled");
    for (size_t times = 2; times < 4; times++) {
        append(some(times * DUMP_LONGEST - dump.len));
        end_refused("too-long", table_of(row, ROWS_MOST), 4);
        append(record_by(row, nothing, 0));
        end_refused("too-long", table_of(row, 1), 4);
    }
    for (size_t less = 0; less < 2; less++) {
        begin_dump(row, ROWS_MOST);
        add_other(some(DUMP_LONGEST - less));
        end_dump("tail");
    }
}

/* One record that is as long as a dump may be, and one that is a byte longer. */
static void one_record(const struct row *row)
{
    begin_dump(row, 1);
    add_by(0, DUMP_LONGEST - LEAST - row->name.len, SEALED);
    end_full("one-record");
    begin_dump(row, 1);
    add_by(0, DUMP_LONGEST + 1 - LEAST - row->name.len, SEALED);
    end_refused("one-record", table_of(row, 1), 4);
}

/* 64 rows, and one too many: names of one byte, of 32, and of 1 to 32, in no order; and of the last, rows of each kind. */
static void largest_tables(void)
{
    struct row all[ROWS_MOST + 1];
    for (unsigned how = 0; how < 3; how++) {
        for (unsigned i = 0; i <= ROWS_MOST; i++) {
            all[i] = row_as(some(how == 0 ? 1 : how == 1 ? 32 : 1 + i % 32), some(32), i % (how < 2 ? 2 : COUNT(kinds)));
            all[i].name.at[0] = (unsigned char)(11 + 37 * i);
        }
        begin_dump(all, ROWS_MOST);
        add_each(0), add(record_by(&all[ROWS_MOST], nothing, 0), NONE), add_each(1);
        end_dump("rows");
        end_refused("rows", table_of(all, ROWS_MOST + 1), 1);
        if (how == 0)
            full(all);
        if (how < 2)
            one_record(&all[how]);
    }
}

/* A bad table is refused whatever the dump is, one that is too long too. */
static void bad_tables(void)
{
    struct row two[] = { rows[1], rows[1] };
    struct bytes t = table_of(rows, ROWS);
    size_t of_kek = 8 + 72 * DATA_ROWS;
    struct bytes bad[] = { nothing, cut(t, 7), cut(t, t.len - 1), joined(t, some(1)), changed(t, 1, 1), changed(t, 3, 1),
        changed(t, 5, 1), changed(t, 7, 1), with(t, 8, 1, 0), with(t, 8, 1, 33), with(t, 9, 1, 0), with(t, 9, 1, 4),
        with(t, 10, 2, 1), with(t, of_kek + 2, 2, 0), with(t, of_kek + 2, 2, 3), changed(t, 12, 1), changed(t, 15, 128),
        changed(t, 17, 1), table_of(two, 2) };
    for (size_t i = 0; i < COUNT(bad); i++) {
        begin_dump(rows, ROWS);
        end_refused("bad-table", bad[i], 1);
        add_each(i);
        end_refused("bad-table", bad[i], 1);
        append(some(DUMP_LONGEST + 1 - dump.len));
        end_refused("bad-table", bad[i], 1);
    }
}

int main(int argc, char **argv)
{
    if (argc != 3)
        fail("to be called with", "SEED FOLDER");
    folder = argv[2];
    begin(argc, argv);
    few_and_many();
    tapes();
    for (unsigned mode = 1; mode <= 2; mode++) {
        not_opened(mode);
        one_name(mode);
        broken(mode);
        past_the_end(mode);
        tails(mode);
        shifted(mode);
        nested(mode);
    }
    largest_tables();
    bad_tables();
    for (unsigned i = 0; i < RANDOM_DUMPS; i++)
        any_dump();
    return 0;
}
