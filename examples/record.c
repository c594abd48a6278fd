/*
 * Seals records by a key table and opens them, then shows each refusal that sealing and opening can give: 1 to 7, 9 and
 * 10. A line says what was tried, and the number that came with its meaning. The number that is expected stands beside
 * each call below; the program ends with status 1 where another came, or where a refusal changed the output. Built and
 * run by `examples/run record`; examples/record.txt is what it prints.
 */
#include "answers.h"

/* What a sealing and an opening read. */
struct sealing {
    struct bytes table, name, iv, aad, plain;
};
struct opening {
    struct bytes table, record, aad;
};

static uint8_t seal(struct sealing s, size_t room)
{
    return spadeswirl_seal(LENT(s.table), LENT(s.name), LENT(s.iv), LENT(s.aad), LENT(s.plain), fresh_out(), room);
}

/* With a session in place of the IV. */
static uint8_t seal_next(struct spadeswirl_session *session, struct sealing s, size_t room)
{
    return spadeswirl_seal_next(session, LENT(s.table), LENT(s.name), LENT(s.aad), LENT(s.plain), fresh_out(), room);
}

static uint8_t open(struct opening o, size_t room, uint64_t *n)
{
    return spadeswirl_open(LENT(o.table), LENT(o.record), LENT(o.aad), fresh_out(), room, n);
}

/* One byte more than a plaintext may have. */
static uint8_t many[SPADESWIRL_TEXT_MAX + 1];

static void sealing_refused(struct sealing right, size_t size)
{
    uint8_t broken[TABLE(3)];
    struct sealing s;

    puts("\nsealing refused:");
    memcpy(broken, right.table.at, sizeof broken);
    broken[3] = 4;
    s = right, s.table.at = broken;
    expect("a table whose header counts one row too many", SPADESWIRL_BAD_TABLE, seal(s, sizeof out));
    s = right, s.name.len = 0;
    expect("an empty name", SPADESWIRL_BAD_LAYOUT, seal(s, sizeof out));
    s = right, s.iv.len = SPADESWIRL_IV_BYTES - 1;
    expect("an IV of 11 bytes", SPADESWIRL_BAD_LAYOUT, seal(s, sizeof out));
    s = right, s.name = text("a name of thirty-three letters...");
    expect("a name of 33 bytes", SPADESWIRL_OVER_MAXIMUM, seal(s, sizeof out));
    s = right, s.aad.at = many, s.aad.len = SPADESWIRL_AAD_MAX + 1;
    expect("4,097 bytes of associated data", SPADESWIRL_OVER_MAXIMUM, seal(s, sizeof out));
    s = right, s.plain.at = many, s.plain.len = SPADESWIRL_TEXT_MAX + 1;
    expect("a plaintext of 1,048,577 bytes", SPADESWIRL_OVER_MAXIMUM, seal(s, sizeof out));
    expect("an output one byte short", SPADESWIRL_SHORT_OUTPUT, seal(right, size - 1));
    s = right, s.name = text("TAPE10");
    expect("by TAPE10, which no row has", SPADESWIRL_NO_ROW, seal(s, sizeof out));
    s = right, s.name = text("KEK1");
    expect("by KEK1, which only a key-encrypting key has", SPADESWIRL_NO_ROW, seal(s, sizeof out));
    s.table.at = broken, s.iv.len = SPADESWIRL_IV_BYTES - 1;
    expect("all of this at once: the lowest number is given", SPADESWIRL_BAD_TABLE, seal(s, 0));
}

static void opening_refused(struct opening right)
{
    static const uint8_t no_rows[SPADESWIRL_TABLE_BYTES(0)] = { 0, 1, 0, 0, 0, 8, 0, 72 };
    uint8_t table[TABLE(3)], record[128];
    struct opening o;
    uint64_t n = 7;

    puts("\nopening refused:");
    memcpy(table, right.table.at, sizeof table);
    table[3] = 4;
    o = right, o.table.at = table;
    expect("a table whose header counts one row too many", SPADESWIRL_BAD_TABLE, open(o, sizeof out, &n));
    o = right, o.record.len--;
    expect("a record one byte short", SPADESWIRL_BAD_LAYOUT, open(o, sizeof out, &n));
    memcpy(record, right.record.at, right.record.len);
    record[7]++;
    o = right, o.record.at = record;
    expect("a header that counts one byte more than there is", SPADESWIRL_BAD_LAYOUT, open(o, sizeof out, &n));
    record[7]--, record[2] = 3;
    expect("a mode that is neither 1 (CCM) nor 2 (GCM)", SPADESWIRL_NOT_PERMITTED, open(o, sizeof out, &n));
    o = right, o.aad.at = many, o.aad.len = SPADESWIRL_AAD_MAX + 1;
    expect("4,097 bytes of associated data", SPADESWIRL_OVER_MAXIMUM, open(o, sizeof out, &n));
    expect("an output one byte short", SPADESWIRL_SHORT_OUTPUT, open(right, 15, &n));
    o = right, o.table.at = no_rows, o.table.len = sizeof no_rows;
    expect("by a table with no rows", SPADESWIRL_NO_ROW, open(o, sizeof out, &n));
    table[3] = 3, table[TABLE(0) + 1] = CCM;
    o = right, o.table.at = table;
    expect("by a table whose TAPE1 is for CCM, and the record GCM's", SPADESWIRL_OTHER_USE, open(o, sizeof out, &n));
    record[2] = GCM, record[right.record.len - 1] ^= 1;
    o = right, o.record.at = record;
    expect("one bit of the tag changed", SPADESWIRL_NOT_AUTHENTIC, open(o, sizeof out, &n));
    o = right, o.aad = text("reel 8");
    expect("other associated data than it was sealed with", SPADESWIRL_NOT_AUTHENTIC, open(o, sizeof out, &n));
    printf("n, which was 7 before, is %u\n", (unsigned)n);
}

/* A session that has one IV left: its last is used once, and a refused record does not use it up. */
static void by_session(struct sealing s)
{
    struct spadeswirl_session session;
    size_t size = SPADESWIRL_RECORD_BYTES(s.name.len, s.plain.len);
    struct bytes record = { out, size };

    puts("\nwith a session in place of an IV:");
    expect("started at its last number, 2^64 - 1", SPADESWIRL_DONE, spadeswirl_session_start(&session, 0x00000002, UINT64_MAX));
    expect("into an output one byte short", SPADESWIRL_SHORT_OUTPUT, seal_next(&session, s, size - 1));
    expect("sealed with the last IV", SPADESWIRL_DONE, seal_next(&session, s, sizeof out));
    show("the session's record", record);
    expect("sealed once more", SPADESWIRL_SESSION_SPENT, seal_next(&session, s, sizeof out));
    expect("once more, and the output is short", SPADESWIRL_SHORT_OUTPUT, seal_next(&session, s, size - 1));
}

int main(void)
{
    static uint8_t table[TABLE(3)];
    static const uint8_t iv[SPADESWIRL_IV_BYTES] = { 0, 0, 0, 1, 0, 0, 0, 0, 0, 0, 0, 1 };
    struct sealing s = { BYTES(table), TEXT("TAPE1"), BYTES(iv), TEXT("reel 7"), TEXT("sixteen letters.") };
    uint8_t record[SPADESWIRL_RECORD_BYTES(5, 16)];
    struct opening o = { BYTES(table), BYTES(record), TEXT("reel 7") };
    uint64_t n = 0;

    begin_table(table, 3);
    set_row(table, 0, "TAPE1", GCM, 0x00);
    set_row(table, 1, "TAPE2", CCM, 0x20);
    set_kek(table, 2, "KEK1", SPADESWIRL_KEK_DS_SAI, 0x40);
    show("the key table", s.table);
    show("the name", s.name);
    show("the IV", s.iv);
    show("the associated data", s.aad);
    show("the plaintext", s.plain);

    puts("\nsealed and opened:");
    expect("sealed by TAPE1, whose row is for GCM", SPADESWIRL_DONE, seal(s, sizeof out));
    memcpy(record, out, sizeof record);
    show("the record", o.record);
    expect("opened", SPADESWIRL_DONE, open(o, sizeof out, &n));
    printf("%u bytes: %.*s\n", (unsigned)n, (int)n, (const char *)out);

    sealing_refused(s, sizeof record);
    opening_refused(o);
    s.name = text("TAPE2");
    by_session(s);
    putchar('\n');
    return all_as_expected();
}
