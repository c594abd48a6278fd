/*
 * A cartridge dump, read anew from document 02, No. 1: its records, how many of them open by each row of a table, and its
 * tail. Every length is taken in 64 bits.
 */
#ifndef DUMPS_H
#define DUMPS_H

#include "records.h"

#define DUMP_MAX 65536
#define TABLE_ROWS_MAX 64

/* The records and their bytes, the bytes of the tail, and how many open by each row. */
struct dump_report {
    unsigned long long records, bytes, tail;
    unsigned long long open[TABLE_ROWS_MAX];
};

/* How long the record at the front of these bytes is, as its own header gives it; 0 where they are too short for that. */
static inline uint64_t record_length(struct bytes rest)
{
    uint64_t whole;
    if (rest.len < HEADER)
        return 0;
    whole = HEADER + get(rest.at + 10, 2) + IV + get(rest.at + 4, 4) + TAG;
    return whole <= rest.len ? whole : 0;
}

/* Counts a record for the row that it opens by, with no caller's data, if there is one: the data row of its whole name. */
static inline void count_open(struct bytes table, struct bytes record, struct dump_report *report)
{
    struct bytes w[] = { table, record, nothing };
    const unsigned char *row = row_for(table, DATA_TYPE, record.at + HEADER, get(record.at + 10, 2));
    if (row && verify_record(w) == 0)
        report->open[(row - table.at - 8) / 72]++;
}

/*
 * The records stand end to end from the dump's start. Reading stops where the dump is too short or a record would be 2, 3
 * or 4, and the tail is what is left from there.
 */
static inline int report_dump(struct bytes table, struct bytes dump, struct dump_report *report)
{
    struct bytes rest = dump, record;
    if (table_bad(table))
        return 1;
    if (dump.len > DUMP_MAX)
        return 4;
    memset(report, 0, sizeof *report);
    while (record_length(rest) != 0) {
        record = cut(rest, record_length(rest));
        if (record_check(record) != 0)
            break;
        report->records++, report->bytes += record.len;
        count_open(table, record, report);
        rest.at += record.len, rest.len -= record.len;
    }
    report->tail = rest.len;
    return 0;
}

#endif
