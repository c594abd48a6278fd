/* Random calls on records and IV sessions. Records that are opened are made by the second program's own sealing. */
#ifndef MADE_RECORDS_H
#define MADE_RECORDS_H

#include "made_tables.h"

/* What a sealing is lent but for its output, and how long its record is. */
struct sealing {
    struct bytes table, name, iv, aad, plain;
    size_t total;
};

/* The flaw of 2 is in the name or in the IV; with a session, in the name. */
static inline struct sealing any_sealing(unsigned flaws, int session)
{
    struct table *t = any_rows(1);
    struct row *r = any_row(t, HAS(flaws, 6));
    int by_name = one_in(2);
    struct lengths l = any_lengths(CALLER_DATA_MAX, HAS(flaws, 4) && !by_name);
    struct sealing s = { .name = r->name, .iv = some(IV), .aad = some(l.data), .plain = some(l.text) };
    if (HAS(flaws, 4) && by_name)
        s.name = long_name(s.name);
    if (HAS(flaws, 2) && (session || one_in(2)))
        s.name = nothing;
    else if (HAS(flaws, 2))
        s.iv = sized(s.iv, another_length(IV));
    make_kind(t, r, 1 + (unsigned)below(2), DATA_TYPE);
    s.table = any_table(t, HAS(flaws, 1));
    s.total = HEADER + s.name.len + IV + s.plain.len + TAG;
    return s;
}

static inline void any_seal(void)
{
    unsigned flaws = FLAWS(1, 2, 4, 5, 6);
    struct sealing s = any_sealing(flaws, 0);
    struct bytes w[] = { s.table, s.name, s.iv, s.aad, s.plain };
    write_made("seal", w, 5, any_room(s.total, HAS(flaws, 5)));
}

/* A header that does not fit: of another n or k, its offsets following; or with one word that is another. */
static inline void break_header(unsigned char *header, struct bytes name, uint64_t n)
{
    struct word w = header_words[below(COUNT(header_words) - 1)];
    uint64_t old = get(header + w.at, w.size), values[] = { old + 1, old - 1, old ^ 1u << below(8), 0, any_number(4) };
    if (one_in(3))
        memcpy(header, front_of(header[2], sized(name, name.len + below(2)), n + below(2)).at, HEADER);
    else
        put(header + w.at, w.size, ONE_OF(values));
}

/* What an opening is lent but for its output, and how long its plaintext is. */
struct opening {
    struct bytes table, record, aad;
    size_t n;
};

/* The flaw of 9: a bit of the record after its front, of the associated data, or of the row's key. */
static inline void make_wrong(struct opening *o, size_t front, struct row *r)
{
    size_t at = front + below(o->record.len - front);
    if (one_in(4))
        o->aad = o->aad.len ? bit_changed(o->aad) : some(1);
    else if (one_in(3))
        r->key = bit_changed(r->key);
    else
        o->record = changed(o->record, at, 1u << below(8));
}

/*
 * The tag is right over whatever the header says, but for the flaw of 9. The flaw of 2 is in the header, which has the
 * most ways; in the total; in both, so that sums of 32 bits would fit; or it is an empty name.
 */
static inline struct opening any_opening(unsigned flaws)
{
    static const unsigned char unknown[] = { 0, 3, 4, 0x10, 0x81, 0xff };
    enum { IN_HEADER = 1, IN_TOTAL = 4, IN_SUMS, IN_NAME, WAYS };
    unsigned way = HAS(flaws, 2) ? 1 + (unsigned)below(WAYS - 1) : 0, mode = 1 + (unsigned)below(2);
    struct table *t = any_rows(1);
    struct row *r = any_row(t, HAS(flaws, 6));
    int by_data = one_in(3);
    struct lengths l = any_lengths(CALLER_DATA_MAX, HAS(flaws, 4) && by_data);
    struct bytes name = HAS(flaws, 4) && !by_data ? long_name(r->name) : way == IN_NAME ? nothing : r->name, front;
    size_t least = HEADER + name.len + IV + TAG, less = 1 + below(one_in(2) ? 1 : least);
    struct opening o = { .aad = some(l.data), .n = way == IN_SUMS ? 0 : l.text };
    front = front_of(HAS(flaws, 3) ? ONE_OF(unknown) : mode, name, way == IN_SUMS ? 0x100000000 - less : o.n);
    if (way >= IN_HEADER && way < IN_TOTAL)
        break_header(front.at, name, o.n);
    o.record = record_of(mode == 1, r->key, front, some(IV), o.aad, some(o.n));
    if (HAS(flaws, 9))
        make_wrong(&o, front.len, r);
    if (way == IN_SUMS || (way == IN_TOTAL && one_in(2)))
        o.record.len -= less;
    else if (way == IN_TOTAL)
        o.record = joined(o.record, some(less));
    make_kind(t, r, HAS(flaws, 7) ? 3 - mode : mode, DATA_TYPE);
    o.table = any_table(t, HAS(flaws, 1));
    return o;
}

static inline void any_open(void)
{
    unsigned flaws = FLAWS(1, 2, 3, 4, 5, 6, 7, 9);
    struct opening o = any_opening(flaws);
    struct bytes w[] = { o.table, o.record, o.aad };
    write_made("open", w, 3, any_room(o.n, HAS(flaws, 5)));
}

static inline void any_verify(void)
{
    struct opening o = any_opening(FLAWS(1, 2, 3, 4, 6, 7, 9));
    struct bytes w[] = { o.table, o.record, o.aad };
    write_made("verify", w, 3, NO_OUTPUT);
}

static inline void any_record_check(void)
{
    struct bytes record = any_opening(FLAWS(2, 3, 4)).record;
    write_made("record_check", &record, 1, NO_OUTPUT);
}

/* Sessions: a half of them near their end. */

#define LIFE_MOST 8

static inline uint64_t any_start(void)
{
    uint64_t n = any_number(1 + (int)below(8));
    return one_in(2) ? UINT64_MAX - below(LIFE_MOST) : n;
}

static inline unsigned any_spent(void)
{
    return one_in(6) ? byte() : 0;
}

static inline void any_session_start(void)
{
    write_start(MADE, (uint32_t)any_number(4), any_start());
}

static inline void any_life(void)
{
    size_t rooms[LIFE_MOST], calls = 1 + below(LIFE_MOST);
    for (size_t i = 0; i < calls; i++)
        rooms[i] = any_room(IV, one_in(3));
    write_life(MADE, "session_issue", NULL, 0, (uint32_t)any_number(4), any_start(), any_spent(), rooms, calls);
}

/* The flaw of 10 is a spent byte, or a start at which the second record is one too many. */
static inline void any_seal_next(void)
{
    unsigned flaws = FLAWS(1, 2, 4, 5, 6, 10), spent = 0;
    struct sealing s = any_sealing(flaws, 1);
    struct bytes w[] = { s.table, s.name, s.aad, s.plain };
    uint64_t start = any_start();
    size_t rooms[3], calls = s.plain.len > 1000 ? 1 : 1 + below(COUNT(rooms));
    for (size_t i = 0; i < calls; i++)
        rooms[i] = any_room(s.total, HAS(flaws, 5) && !one_in(4));
    if (HAS(flaws, 10) && one_in(2))
        start = UINT64_MAX;
    else if (HAS(flaws, 10))
        spent = 1 + (unsigned)below(255);
    write_life(MADE, "seal_next", any_damage(w, 4), 4, (uint32_t)any_number(4), start, spent, rooms, calls);
}

#endif
