/* Random cartridge dumps. */
#ifndef MADE_DUMPS_H
#define MADE_DUMPS_H

#include "dump_parts.h"

/* A record by a row of the table, or by one that it has not; half of them as they are sealed. */
static inline void add_any(struct table *t)
{
    unsigned i = (unsigned)below(t->count + 1);
    size_t n = one_in(20) ? 1000 + below(3000) : any_length();
    enum way way = one_in(2) ? SEALED : (enum way)below(WAYS);
    if (i < t->count)
        add_by(i, n, way);
    else
        add(record_as(&t->row[i], n, way), NONE);
}

/*
 * Where reading stops: a bit of the header is another, but for the mode; a mode that is none; a name too long, or empty; an
 * end past any dump. The tag is right over the header.
 */
static inline struct bytes any_broken(struct table *t)
{
    static const unsigned char unknown[] = { 0, 3, 4, 0x10, 0x81, 0xff };
    const struct row *r = &t->row[below(t->count + 1)];
    unsigned mode = 1 + (unsigned)below(2);
    size_t n = any_length(), at = below(HEADER - 1);
    uint64_t far[] = { DUMP_LONGEST + below(PLAIN_MAX), 0x100000000 - 1 - below(100), 0x80000000 + below(100) };
    struct bytes front = front_of(mode, r->name, n);
    switch (below(5)) {
    case 0: front = changed(front, at < 2 ? at : at + 1, 1u << below(8)); break;
    case 1: front = with(front, 2, 1, ONE_OF(unknown)); break;
    case 2: front = front_of(mode, long_name(r->name), n); break;
    case 3: front = front_of(mode, nothing, n); break;
    case 4: front = front_of(mode, r->name, ONE_OF(far)); break;
    }
    return record_of(mode == 1, r->key, front, some(IV), nothing, some(n));
}

/* A part of a record, zeros, or anything. */
static inline struct bytes any_tail(struct table *t)
{
    struct bytes record = record_by(&t->row[below(t->count + 1)], nothing, any_length()), junk = some(1 + any_length());
    if (one_in(2))
        return cut(record, one_in(2) ? record.len - 1 : 1 + below(record.len - 1));
    if (one_in(4))
        memset(junk.at, 0, junk.len);
    return junk;
}

/* A table with a flaw that nothing else in it makes good. */
static inline struct bytes refused_table(struct table *t)
{
    struct bytes whole = table_of(t->row, t->count);
    size_t i = t->count ? below(t->count) : 0, at = 8 + 72 * i;
    switch (below(t->count ? 7 : 3)) {
    case 0: return cut(whole, below(whole.len));
    case 1: return joined(whole, some(1 + below(80)));
    case 2: return changed(whole, below(8), 1u << below(8));
    case 3: return with(whole, at, 1, one_in(2) ? 0 : NAME_LONGEST + 1 + below(200));
    case 4: return with(whole, at + 1, 1, one_in(2) ? 0 : 4 + below(200));
    case 5: return with(whole, at + 2, 2, wrong_type(t->row[i].use));
    }
    t->row[t->count] = t->row[i];
    return table_of(t->row, t->count + 1);
}

/*
 * Any rows and records; often a place where reading stops, with what follows; then a tail or none. Now and then the dump or
 * the table is refused.
 */
static inline void any_dump(void)
{
    struct table *t = any_rows(1);
    int longer = one_in(16), bad = one_in(12);
    begin_dump(t->row, t->count);
    for (uint64_t left = one_in(8) ? below(150) : below(12); left > 0 && dump.len < DUMP_LONGEST / 2; left--)
        add_any(t);
    if (one_in(3)) {
        add_other(any_broken(t));
        for (uint64_t left = below(4); left > 0; left--)
            add_any(t);
    }
    if (one_in(2))
        add_other(any_tail(t));
    if (longer)
        append(some(DUMP_LONGEST + 1 - dump.len + (one_in(2) ? 0 : below(DUMP_LONGEST))));
    if (bad || longer)
        end_refused(MADE, bad ? refused_table(t) : table_of(t->row, t->count), bad ? 1 : 4);
    else
        end_dump(MADE);
}

#endif
