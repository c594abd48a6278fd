/*
 * The unit itself, record by record: a key table of one row for each mode or one of 64 rows, a name of 32 bytes and no associated data of the
 * caller's. So the mode's associated data is the record's first 56 bytes, which peers are given; a record's ciphertext begins at byte 68, and
 * its tag follows it. A key is unwrapped by the call that takes the key-encrypting key itself, without a table, and a page is loaded by a table
 * of two rows. Tables and pages are made once, as a caller keeps them.
 */
#include <stdlib.h>
#include <string.h>
#include "peers.h"
#include "spadeswirl.h"

#define NAME SPADESWIRL_NAME_MAX
#define MANY SPADESWIRL_ROWS_MAX

/* Of 64 rows there is a table for each mode: the row looked for is the last, since it is found last. */
static uint8_t two[SPADESWIRL_TABLE_BYTES(2)], many[2][SPADESWIRL_TABLE_BYTES(MANY)], loading[SPADESWIRL_TABLE_BYTES(2)];
static uint8_t plain_page[PLAIN_PAGE], wrapped_page[WRAPPED_PAGE];

static void begin(uint8_t *table, uint8_t rows)
{
    const uint8_t header[SPADESWIRL_TABLE_HEADER_BYTES] = { 0, 1, 0, rows, 0, SPADESWIRL_TABLE_HEADER_BYTES, 0, SPADESWIRL_ROW_BYTES };
    memcpy(table, header, sizeof header);
}

/* A row whose name counts up from a letter. Answers the name; the key follows it. */
static uint8_t *set(uint8_t *table, int i, uint8_t use, int letter, const uint8_t *key)
{
    uint8_t *row = table + SPADESWIRL_TABLE_BYTES(i), *name = row + 8;
    row[0] = NAME, row[1] = use, row[3] = use == SPADESWIRL_KEK ? SPADESWIRL_KEK_ASSIGNED : SPADESWIRL_TYPE_DATA;
    for (int k = 0; k < NAME; k++)
        name[k] = (uint8_t)(letter + k);
    memcpy(name + NAME, key, SPADESWIRL_KEY_BYTES);
    return name;
}

/* The names of 64 rows differ in their last two bytes alone, so that telling two apart goes to the end. Only the last row has the key. */
static void ready_many(int mode, uint8_t use, const uint8_t *key)
{
    begin(many[mode], MANY);
    for (int i = 0; i < MANY; i++) {
        uint8_t *name = set(many[mode], i, use, 'A', key);
        name[NAME - 2] = (uint8_t)('0' + i / 10);
        name[NAME - 1] = (uint8_t)('0' + i % 10);
        name[NAME] ^= (uint8_t)(MANY - 1 - i);
    }
}

static void ready_pages(const uint8_t *key, const uint8_t *carried)
{
    uint64_t n, fields[SPADESWIRL_FIELDS_CHOSEN] = { [SPADESWIRL_FIELD_ENCRYPTION_MODE] = 2, [SPADESWIRL_FIELD_DECRYPTION_MODE] = 2,
        [SPADESWIRL_FIELD_ALGORITHM_INDEX] = SPADESWIRL_GCM, [SPADESWIRL_FIELD_KEY_FORMAT] = SPADESWIRL_FORMAT_KEY };
    begin(loading, 2);
    set(loading, 0, SPADESWIRL_GCM, 'A', carried);
    const uint8_t *identifier = set(loading, 1, SPADESWIRL_KEK, 'B', key);
    if (spadeswirl_page_write(fields, carried, SPADESWIRL_KEY_BYTES, NULL, 0, plain_page, sizeof plain_page, &n) || n != sizeof plain_page)
        abort();
    fields[SPADESWIRL_FIELD_KEY_FORMAT] = SPADESWIRL_FORMAT_WRAPPED;
    if (spadeswirl_page_write_wrapped(loading, sizeof loading, fields, SPADESWIRL_KEK_ASSIGNED, identifier, NAME, carried,
                                      SPADESWIRL_KEY_BYTES, NULL, 0, wrapped_page, sizeof wrapped_page, &n) || n != sizeof wrapped_page)
        abort();
}

void unit_ready(const uint8_t *key, const uint8_t *carried)
{
    begin(two, 2);
    set(two, GCM, SPADESWIRL_GCM, 'A', key);
    set(two, CCM, SPADESWIRL_CCM, 'B', key);
    ready_many(GCM, SPADESWIRL_GCM, key);
    ready_many(CCM, SPADESWIRL_CCM, key);
    ready_pages(key, carried);
}

static const uint8_t *table(int mode, size_t rows)
{
    return rows == MANY ? many[mode] : two;
}

static void seal(int mode, struct message *m)
{
    const uint8_t *keys = table(mode, m->rows), *row = keys + SPADESWIRL_TABLE_BYTES(m->rows == MANY ? MANY - 1 : mode);
    if (spadeswirl_seal(keys, SPADESWIRL_TABLE_BYTES(m->rows), row + 8, NAME, m->iv, SPADESWIRL_IV_BYTES, NULL, 0, m->text, m->len,
                        m->out - FRONT, FRONT + m->len + SPADESWIRL_TAG_BYTES))
        abort();
    memcpy(m->tag, m->out + m->len, SPADESWIRL_TAG_BYTES);
}

static int open(int mode, struct message *m)
{
    uint64_t n = 0;
    return spadeswirl_open(table(mode, m->rows), SPADESWIRL_TABLE_BYTES(m->rows), m->text - FRONT, FRONT + m->len + SPADESWIRL_TAG_BYTES,
                           NULL, 0, m->out, m->len, &n) == 0 && n == m->len;
}

static int unwrap(const uint8_t *kek, const uint8_t *wrapped, uint8_t *out)
{
    return spadeswirl_unwrap(kek, SPADESWIRL_KEY_BYTES, wrapped, SPADESWIRL_WRAPPED_BYTES, out, SPADESWIRL_KEY_BYTES) == 0;
}

int unit_check(size_t rows)
{
    return spadeswirl_table_check(table(GCM, rows), SPADESWIRL_TABLE_BYTES(rows)) == 0;
}

int unit_load(size_t page_len, uint8_t *out)
{
    const uint8_t *page = page_len == PLAIN_PAGE ? plain_page : wrapped_page;
    uint64_t fields[SPADESWIRL_FIELDS];
    return spadeswirl_page_load(loading, sizeof loading, page, page_len, out, SPADESWIRL_KEY_BYTES, fields) == 0;
}

const struct peer unit = { "spadeswirl", seal, open, unwrap };
