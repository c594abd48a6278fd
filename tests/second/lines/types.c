/*
 * Lines of calls on rows of one name: every table of at most three such rows, each for CCM, for GCM or a key-encrypting
 * key of either type, alone and among rows of other names. Every call that takes a table looks for the name there, a
 * lookup by each type; records and wrapped keys are made with the key of each kind of row, so that a wrong row shows. Then
 * the types that a row of each use may have, and tables of the old kind, which had none. After each line stands its answer
 * as documents 01 and 02 have it: `#= NAME NUMBER`, and the first piece that is lent to be written, as it is after the
 * call. Inputs come from a seed, which is printed.
 */
#include "page_parts.h"

/* The most rows of the name, the bytes of a plaintext, and how many more are lent for a result than it takes. */
#define MOST 3
#define PLAIN 9
#define MORE 2

/* The name, and a key for each kind of row. */
static struct bytes name, key[COUNT(kinds)];

/* What the rules see of a table: whether it is refused, which types have a row of the name, and the use of the data row. */
struct seen {
    int refused, has[3];
    unsigned use;
};

/* The answer to the line before it: the number, and a piece of so much room, with the result over its front after 0. */
static void answers(const char *about, unsigned number, struct bytes result, size_t room)
{
    struct bytes piece = room_for(room);
    memset(piece.at, 0xa5, room);
    if (number == 0)
        memcpy(piece.at, result.at, result.len);
    printf("#= %s.%lu %u", about, lines, number);
    if (room > 0)
        put_hex(piece.at, room);
    putchar('\n');
    free(piece.at);
}

static void tested(const char *about, struct bytes table, int refused)
{
    write_call(about, "table_check", &table, 1, NO_OUTPUT);
    answers(about, refused ? 1 : 0, nothing, 0);
}

/* A data row has type 0, a key-encrypting key's 1 or 2, and no row another. */
static void found(const char *about, struct bytes table, struct seen s, unsigned type)
{
    struct bytes w[] = { table, name }, use = room_for(8);
    put(use.at, 8, type == 0 ? s.use : 3);
    write_find(about, w, type);
    answers(about, s.refused ? 1 : type > 2 ? 3 : !s.has[type] ? 6 : 0, use, 8);
}

/* A record is sealed by the data row, and by no other. */
static void sealed(const char *about, struct bytes table, struct seen s)
{
    uint32_t prefix = (uint32_t)any_number(4);
    uint64_t start = any_number(7);
    struct bytes iv = room_for(IV), aad = some(5), plain = some(PLAIN), record = nothing, w[] = { table, name, aad, plain };
    size_t room = HEADER + name.len + IV + PLAIN + TAG + MORE;
    unsigned number = s.refused ? 1 : !s.has[0] ? 6 : 0;
    put(iv.at, 4, prefix), put(iv.at + 4, 8, start);
    if (number == 0)
        record = record_of(s.use == 1, key[s.use - 1], front_of(s.use, name, PLAIN), iv, aad, plain);
    seals(about, table, name, iv, aad, plain, room);
    answers(about, number, record, room);
    write_life(about, "seal_next", w, 4, prefix, start, 0, &room, 1);
    printf("#= %s.%lu.start 0", about, lines);
    put_hex(iv.at, 4);
    putchar('\n');
    answers(about, number, record, room);
}

/*
 * A record of a mode, made with the key of a kind of row: the data row opens it, where it is for the mode and has the key.
 * Verifying it gives the same number.
 */
static void opened(const char *about, struct bytes table, struct seen s, unsigned mode, unsigned by)
{
    struct bytes aad = some(5), plain = some(PLAIN);
    struct bytes record = record_of(mode == 1, key[by], front_of(mode, name, PLAIN), some(IV), aad, plain);
    unsigned number = s.refused ? 1 : !s.has[0] ? 6 : s.use != mode ? 7 : by != mode - 1 ? 9 : 0;
    opens(about, table, record, aad, PLAIN + MORE);
    answers(about, number, plain, PLAIN + MORE);
    verifies(about, table, record, aad);
    answers(about, number, nothing, 0);
}

/* A reference gives the key of the data row, where that is for the page's index. */
static void referred(const char *about, struct bytes table, struct seen s, unsigned index)
{
    loads(about, table, page_of(index, REFERENCE, name, nothing), 32 + MORE);
    answers(about, s.refused ? 1 : !s.has[0] ? 6 : s.use != index ? 7 : 0, key[index - 1], 32 + MORE);
}

/* A key wrapped under the key of a kind of row: the key-encrypting key of the page's type unwraps it, where it has the key. */
static void unwrapped(const char *about, struct bytes table, struct seen s, unsigned type, unsigned by)
{
    struct bytes inside = some(32), wrapped = room_for(40);
    unsigned number = s.refused ? 1 : type < 1 || type > 2 ? 3 : !s.has[type] ? 6 : by != 1 + type ? 9 : 0;
    must(key_wrap(1, key[by].at, inside.at, wrapped.at), "wrap");
    loads(about, table, page_of(1 + type % 2, WRAPPED_KEY, wrapped_part(type, name, wrapped), nothing), 32 + MORE);
    answers(about, number, inside, 32 + MORE);
}

/* A key is wrapped by the key-encrypting key of the type, and by no other; no type but 1 and 2 is one of those. */
static void wrapped(const char *about, struct bytes table, struct seen s, unsigned type)
{
    struct bytes inside = some(32), bytes = room_for(40), w[] = { table, name, inside, nothing }, page = nothing;
    unsigned long long numbers[] = { 1, 0, 2, 1, 0, 1, 0, 1, 2, 3, 1 + type % 2, WRAPPED_KEY, type };
    unsigned number = s.refused ? 1 : type < 1 || type > 2 ? 3 : !s.has[type] ? 6 : 0;
    size_t room = PAGE_HEAD + 4 + name.len + 40 + MORE;
    if (number == 0) {
        must(key_wrap(1, key[1 + type].at, inside.at, bytes.at), "wrap");
        page = page_from(numbers, wrapped_part(type, name, bytes), nothing);
    }
    write_whole(about, "page_write_wrapped", w, 4, numbers, COUNT(numbers), room);
    answers(about, number, page, room);
}

static void every_call(const char *about, struct bytes table, struct seen s)
{
    static const unsigned sought[] = { 0, 1, 2, 3, 0x100, 0x101, 0x102, 0x200, 0x8000, 0xffff };
    struct bytes plain = some(32);
    tested(about, table, s.refused);
    for (size_t i = 0; i < COUNT(sought); i++)
        found(about, table, s, sought[i]);
    sealed(about, table, s);
    for (unsigned mode = 1; mode <= 2; mode++)
        for (unsigned by = 0; by < COUNT(kinds); by++)
            opened(about, table, s, mode, by);
    for (unsigned index = 1; index <= 2; index++)
        referred(about, table, s, index);
    for (unsigned type = 0; type <= 3; type++)
        for (unsigned by = 0; by < COUNT(kinds); by++)
            unwrapped(about, table, s, type, by);
    for (size_t i = 0; i < COUNT(sought); i++)
        wrapped(about, table, s, sought[i]);
    loads(about, table, page_of(1, PLAIN_KEY, plain, nothing), 32 + MORE);
    answers(about, s.refused ? 1 : 0, plain, 32 + MORE);
}

/* Rows of the name, of these kinds: no two may have one type. */
static struct seen rows_of(const unsigned *kind, unsigned count, struct row *row)
{
    struct seen s = { 0, { 0, 0, 0 }, 0 };
    for (unsigned i = 0; i < count; i++) {
        unsigned type = kinds[kind[i]].type;
        row[i] = row_as(name, key[kind[i]], kind[i]);
        s.refused = s.refused || s.has[type];
        s.has[type] = 1;
        if (type == 0)
            s.use = kinds[kind[i]].use;
    }
    return s;
}

/*
 * Every choice of kinds in every order, those that come twice too. Then each between rows with the same keys, whose names
 * are longer by a zero byte and shorter by a byte.
 */
static void one_name(void)
{
    struct bytes zero = { (unsigned char *)"", 1 }, longer = joined(name, zero), shorter = cut(name, name.len - 1);
    for (unsigned count = 0; count <= MOST; count++)
        for (unsigned which = 0; which < 1u << 2 * count; which++) {
            struct row row[3 + MOST + 3];
            unsigned kind[MOST];
            struct seen s;
            for (unsigned i = 0; i < count; i++)
                kind[i] = which >> 2 * i & 3;
            s = rows_of(kind, count, row + 3);
            every_call("one-name", table_of(row + 3, count), s);
            for (unsigned i = 0; i < 3; i++) {
                row[i] = row_as(longer, key[1 + i], 1 + i);
                row[3 + count + i] = row_as(shorter, key[i ? 1 + i : 0], i ? 1 + i : 0);
            }
            every_call("among-others", table_of(row, 3 + count + 3), s);
        }
}

/* Two rows of the name, far apart and side by side, in a table of 64. */
static void far_apart(void)
{
    static const unsigned places[][2] = { { 0, 63 }, { 62, 63 }, { 0, 1 }, { 31, 40 } };
    struct row all[64], two_rows[2];
    for (unsigned i = 0; i < 64; i++) {
        all[i] = row_as(some(name.len), some(32), i % COUNT(kinds));
        all[i].name.at[0] = (unsigned char)(name.at[0] + 1 + i);
    }
    for (size_t p = 0; p < COUNT(places); p++)
        for (unsigned pair = 0; pair < 16; pair++) {
            unsigned kind[] = { pair / 4, pair % 4 };
            struct seen s = rows_of(kind, 2, two_rows);
            struct row in_table[64];
            memcpy(in_table, all, sizeof all);
            in_table[places[p][0]] = two_rows[0], in_table[places[p][1]] = two_rows[1];
            tested("far-apart", table_of(in_table, 64), s.refused);
            for (unsigned type = 0; type <= 2; type++)
                found("far-apart", table_of(in_table, 64), s, type);
        }
}

/* Each use with each type: 0001h and 0002h go with use 03h, 0000h with 01h and 02h. Bytes 4-7 are zero. */
static void types_of_a_row(void)
{
    static const unsigned types[] = { 0, 1, 2, 3, 4, 0x7f, 0x80, 0xff, 0x100, 0x101, 0x102, 0x200, 0x201, 0x202, 0x300, 0x8000,
        0xffff };
    for (unsigned use = 0; use <= 4; use++)
        for (size_t i = 0; i < COUNT(types); i++) {
            unsigned type = types[i];
            int fits = use == 3 ? type == 1 || type == 2 : (use == 1 || use == 2) && type == 0;
            struct row row = { name, key[0], use, type };
            struct seen s = { !fits, { type == 0, type == 1, type == 2 }, use };
            tested("type-of-a-row", table_of(&row, 1), !fits);
            for (unsigned sought = 0; sought <= 3; sought++)
                found("type-of-a-row", table_of(&row, 1), s, sought);
        }
    for (unsigned kind = 0; kind < COUNT(kinds); kind++)
        for (size_t at = 4; at < 8; at++)
            for (unsigned bit = 0; bit < 8; bit++) {
                struct row row = row_as(name, key[kind], kind);
                tested("bytes-4-to-7", changed(table_of(&row, 1), 8 + at, 1u << bit), 1);
            }
}

/* A table of the old kind, in which a key-encrypting key's row has zeros in bytes 2-3: every call that takes a table gives 1. */
static void old_kind(void)
{
    struct row old = { name, key[2], 3, 0 };
    struct row others[] = { row_as(some(12), key[0], 0), row_as(some(12), key[3], 3), row_as(name, key[1], 1) };
    struct seen refused = { 1, { 0, 0, 0 }, 0 };
    every_call("old-kind", table_of(&old, 1), refused);
    for (size_t i = 0; i < COUNT(others); i++) {
        every_call("old-kind", table_of((struct row[]){ old, others[i] }, 2), refused);
        every_call("old-kind", table_of((struct row[]){ others[i], old }, 2), refused);
    }
}

int main(int argc, char **argv)
{
    start_from(argc > 1 ? argv[1] : "1");
    name = some(12);
    for (unsigned kind = 0; kind < COUNT(kinds); kind++)
        key[kind] = some(32);
    one_name();
    far_apart();
    types_of_a_row();
    old_kind();
    return 0;
}
