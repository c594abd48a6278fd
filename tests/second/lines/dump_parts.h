/*
 * What the writer of cartridge dumps uses: a dump that is being made, with the rows of its table and what a report over it
 * has to say, which is counted as its parts are put there. Nothing is freed: that program is short.
 */
#ifndef DUMP_PARTS_H
#define DUMP_PARTS_H

#include "made_tables.h"

/* The longest dump of document 02, No. 1, and room for longer ones. */
#define DUMP_LONGEST 65536
#define DUMP_ROOM (4 * DUMP_LONGEST)

/* The bytes of a record but for its name and its text; and in place of a row, that a record opens by none. */
#define LEAST (HEADER + IV + TAG)
#define NONE ROWS_MOST

/* Where the dumps are written. */
static const char *folder;

static struct {
    struct row row[ROWS_MOST];
    unsigned rows;
    unsigned char at[DUMP_ROOM];
    size_t len;
    unsigned records, bytes, open[ROWS_MOST];
    int stopped;
} dump;

static inline void begin_dump(const struct row *row, unsigned count)
{
    memset(&dump, 0, sizeof dump);
    memcpy(dump.row, row, count * sizeof row[0]);
    dump.rows = count;
}

static inline void append(struct bytes b)
{
    if (b.len > DUMP_ROOM - dump.len)
        fail("no room", "append");
    memcpy(dump.at + dump.len, b.at, b.len);
    dump.len += b.len;
}

/* What keeps a record's layout: it is counted, and for the row that it opens by, unless reading has stopped before it. */
static inline void add(struct bytes record, unsigned row)
{
    append(record);
    if (dump.stopped)
        return;
    dump.records++, dump.bytes += (unsigned)record.len;
    if (row != NONE)
        dump.open[row]++;
}

/* What is no record: reading stops there, if it has not before. */
static inline void add_other(struct bytes b)
{
    append(b);
    dump.stopped = 1;
}

/* A record as a row seals it, or how it is made otherwise: each keeps the layout, and the first alone opens. */
enum way { SEALED, TAG_CHANGED, TEXT_CHANGED, IV_CHANGED, NAME_CHANGED, MODE_CHANGED, OTHER_KEY, OTHER_MODE, WITH_DATA, WAYS };

/* A key-encrypting key's row is taken as if it were for GCM. */
static inline struct bytes record_as(const struct row *r, size_t n, enum way way)
{
    struct row by = *r;
    struct bytes record;
    size_t iv = HEADER + r->name.len, text = iv + IV, tag = text + n;
    if (way == OTHER_KEY)
        by.key = bit_changed(by.key);
    if (way == OTHER_MODE)
        by.use = by.use == 1 ? 2 : 1;
    record = record_by(&by, way == WITH_DATA ? some(1 + below(20)) : nothing, n);
    switch (way) {
    case TAG_CHANGED: return changed(record, tag + below(TAG), 1u << below(8));
    case TEXT_CHANGED: return changed(record, n ? text + below(n) : tag, 1u << below(8));
    case IV_CHANGED: return changed(record, iv + below(IV), 1u << below(8));
    case NAME_CHANGED: return changed(record, HEADER + below(r->name.len), 1u << below(8));
    case MODE_CHANGED: return changed(record, 2, 1 ^ 2);
    default: return record;
    }
}

/* A record by a row of the table: as it is sealed, it opens by that row, where that is one of data. */
static inline void add_by(unsigned i, size_t n, enum way way)
{
    const struct row *r = &dump.row[i];
    add(record_as(r, n, way), way == SEALED && r->type == DATA_TYPE ? i : NONE);
}

/* A record by each row of data, of n bytes and more. */
static inline void add_each(size_t n)
{
    for (unsigned i = 0; i < dump.rows; i++)
        if (dump.row[i].type == DATA_TYPE)
            add_by(i, n + i, SEALED);
}

static inline void write_file(const char *name, const char *kind, const void *at, size_t len)
{
    char path[4096];
    FILE *out;
    if (snprintf(path, sizeof path, "%s/%s.%s", folder, name, kind) >= (int)sizeof path || !(out = fopen(path, "wb")))
        fail("cannot write", name);
    if (fwrite(at, 1, len, out) != len || fclose(out) != 0)
        fail("cannot write", name);
}

/* A dump's name is made as a line's. */
static inline void write_dump(const char *about, struct bytes table, const char *text)
{
    char name[64];
    snprintf(name, sizeof name, "%s.%lu", about, ++lines);
    write_file(name, "table", table.at, table.len);
    write_file(name, "dump", dump.at, dump.len);
    write_file(name, "text", text, strlen(text));
    puts(name);
}

/* Writes the dump as it was made: its tail is what was not counted as a record's. */
static inline void end_dump(const char *about)
{
    char text[100 * ROWS_MOST], *end = text + sprintf(text, "records %u\nbytes %u\n", dump.records, dump.bytes);
    for (unsigned i = 0; i < dump.rows; i++) {
        struct bytes name = dump.row[i].name;
        end += sprintf(end, "open ");
        for (size_t k = 0; k < name.len; k++)
            *end++ = "0123456789ABCDEF"[name.at[k] / 16], *end++ = "0123456789ABCDEF"[name.at[k] % 16];
        end += sprintf(end, " %u\n", dump.open[i]);
    }
    sprintf(end, "tail %zu\n", dump.len - dump.bytes);
    if (dump.len > DUMP_LONGEST)
        fail("too long", about);
    write_dump(about, table_of(dump.row, dump.rows), text);
}

/* Writes the dump with a table, for a report that is refused. */
static inline void end_refused(const char *about, struct bytes table, unsigned number)
{
    char text[16];
    sprintf(text, "refused %u\n", number);
    write_dump(about, table, text);
}

#endif
