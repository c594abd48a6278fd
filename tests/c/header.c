/*
 * The header's constants, each by calls that it decides: a maximum by what it takes and by one more, a length by itself and by its neighbours, a
 * number by a call that gives it. A line a constant or more, `ok` or `wrong` and what it is about; run by tests/readme.
 */
#include <stdio.h>
#include <string.h>
#include "spadeswirl.h"

#define LENT(array) (array), sizeof(array)
#define K SPADESWIRL_KEY_BYTES
#define IV SPADESWIRL_IV_BYTES
#define TAG SPADESWIRL_TAG_BYTES
#define BLOCK SPADESWIRL_BLOCK_BYTES
#define WRAPPED SPADESWIRL_WRAPPED_BYTES
#define NAME SPADESWIRL_NAME_MAX

static uint8_t zeros[SPADESWIRL_RECORD_MAX], out[SPADESWIRL_RECORD_MAX], table[SPADESWIRL_TABLE_BYTES(SPADESWIRL_ROWS_MAX + 1)];
static uint64_t fields[SPADESWIRL_FIELDS];

static void says(const char *what, int holds)
{
    printf("%s %s\n", holds ? "ok" : "wrong", what);
}

/* Rows with names of NAME bytes, each its place and then zeros: of uses CCM, GCM and KEK in turn, and of KEKs each type. */
static size_t rows(unsigned count)
{
    memset(table, 0, sizeof table);
    table[1] = 1, table[3] = (uint8_t)count, table[5] = SPADESWIRL_TABLE_HEADER_BYTES, table[7] = SPADESWIRL_ROW_BYTES;
    for (unsigned i = 0; i < count; i++) {
        uint8_t *row = table + SPADESWIRL_TABLE_BYTES(i);
        row[0] = NAME, row[1] = (uint8_t)(1 + i % 3), row[8] = (uint8_t)i;
        row[3] = i % 3 < 2 ? SPADESWIRL_TYPE_DATA : i % 6 < 3 ? SPADESWIRL_KEK_DS_SAI : SPADESWIRL_KEK_ASSIGNED;
    }
    return SPADESWIRL_TABLE_BYTES(count);
}

static uint8_t seal(uint8_t row, size_t aad_len, size_t n, size_t room)
{
    uint8_t name[NAME] = { row };
    return spadeswirl_seal(table, rows(3), LENT(name), zeros, IV, zeros, aad_len, zeros, n, out, room);
}

static uint8_t use_of(uint8_t row, uint16_t type, uint64_t *use)
{
    uint8_t name[NAME] = { row };
    return spadeswirl_find(table, rows(6), type, LENT(name), use);
}

/* Whether the row is found by that type, with that use, and by no other type. */
static int only(uint8_t row, uint16_t type, uint64_t wanted)
{
    int right = 1;
    for (uint16_t other = SPADESWIRL_TYPE_DATA; other <= SPADESWIRL_KEK_ASSIGNED; other++) {
        uint64_t use = 0;
        uint8_t number = use_of(row, other, &use);
        right = right && number == (other == type ? SPADESWIRL_DONE : SPADESWIRL_NO_ROW) && use == (other == type ? wanted : 0);
    }
    return right;
}

/* What was sealed last, by row 0 and of no text, is opened with that use of the row. */
static uint8_t open_by_use(uint8_t use)
{
    uint64_t n;
    table[SPADESWIRL_TABLE_BYTES(0) + 1] = use;
    return spadeswirl_open(table, SPADESWIRL_TABLE_BYTES(3), out, SPADESWIRL_RECORD_BYTES(NAME, 0), NULL, 0, NULL, 0, &n);
}

static uint8_t gcm(size_t iv_len, size_t aad_len, size_t n, size_t room)
{
    return spadeswirl_gcm_encrypt(zeros, K, zeros, iv_len, zeros, aad_len, zeros, n, out, room);
}

/* A page of so many bytes, the KEY part of so many, and then a vendor's descriptor to the end where there is room for one. */
static uint8_t page(uint8_t format, uint8_t kek_type, size_t key_len, size_t len)
{
    static uint8_t p[SPADESWIRL_PAGE_MAX + 1];
    uint8_t *key = p + SPADESWIRL_PAGE_HEADER_BYTES, *list = key + key_len;
    size_t rest = len - (size_t)(list - p);
    memset(p, 0, sizeof p);
    p[1] = 0x10, p[2] = (uint8_t)((len - 4) / 256), p[3] = (uint8_t)(len - 4);
    p[4] = 2 << 5 | 1, p[5] = 2 << 6 | 3 << 4 | 1 << 2 | 1, p[6] = 1, p[7] = 3, p[8] = SPADESWIRL_GCM, p[9] = format;
    p[19] = (uint8_t)key_len;
    if (format == SPADESWIRL_FORMAT_WRAPPED)
        key[1] = kek_type, key[3] = 1;
    if (rest >= SPADESWIRL_DESCRIPTOR_HEADER_BYTES) {
        list[0] = 0xc0;
        list[2] = (uint8_t)((rest - SPADESWIRL_DESCRIPTOR_HEADER_BYTES) / 256), list[3] = (uint8_t)(rest - SPADESWIRL_DESCRIPTOR_HEADER_BYTES);
    }
    return spadeswirl_page_read(p, len, fields);
}

static uint8_t page_with(uint8_t format, uint8_t kek_type, size_t key_len)
{
    return page(format, kek_type, key_len, SPADESWIRL_PAGE_HEADER_BYTES + key_len);
}

/* A label of so many bytes: the descriptors that it needs, the last as long as it takes. */
static uint8_t label(size_t len, uint64_t *count)
{
    static const uint8_t types[] = { 0x00, 0x01, 0x03, 0x04 };
    static uint8_t l[SPADESWIRL_LABEL_MAX + 1];
    uint8_t *at = l + SPADESWIRL_LABEL_HEADER_BYTES;
    memset(l, 0, sizeof l);
    for (unsigned i = 0; i < sizeof types; i++, at += SPADESWIRL_DESCRIPTOR_HEADER_BYTES)
        at[0] = types[i];
    at[-2] = (uint8_t)((len - (size_t)(at - l)) / 256), at[-1] = (uint8_t)(len - (size_t)(at - l));
    return spadeswirl_label_check(l, len, count);
}

static void ciphers(void)
{
    uint8_t block[BLOCK + 1] = { 0 };
    says("KEY_BYTES", spadeswirl_aes256_encrypt(zeros, K, block, BLOCK) == SPADESWIRL_DONE
         && spadeswirl_aes256_encrypt(zeros, K - 1, block, BLOCK) == SPADESWIRL_BAD_LAYOUT
         && spadeswirl_aes256_encrypt(zeros, K + 1, block, BLOCK) == SPADESWIRL_BAD_LAYOUT);
    says("BLOCK_BYTES", spadeswirl_aes256_decrypt(zeros, K, block, BLOCK - 1) == SPADESWIRL_BAD_LAYOUT
         && spadeswirl_aes256_decrypt(zeros, K, block, BLOCK + 1) == SPADESWIRL_BAD_LAYOUT);
    says("IV_BYTES", gcm(IV, 0, 0, sizeof out) == SPADESWIRL_DONE && gcm(IV - 1, 0, 0, sizeof out) == SPADESWIRL_BAD_LAYOUT
         && gcm(IV + 1, 0, 0, sizeof out) == SPADESWIRL_BAD_LAYOUT);
    says("MODE_AAD_MAX", gcm(IV, SPADESWIRL_MODE_AAD_MAX, 0, 0) == SPADESWIRL_SHORT_OUTPUT
         && gcm(IV, SPADESWIRL_MODE_AAD_MAX + 1, 0, 0) == SPADESWIRL_OVER_MAXIMUM);
    says("TEXT_MAX", gcm(IV, 0, SPADESWIRL_TEXT_MAX, 0) == SPADESWIRL_SHORT_OUTPUT
         && gcm(IV, 0, SPADESWIRL_TEXT_MAX + 1, 0) == SPADESWIRL_OVER_MAXIMUM);
    says("TAG_BYTES", gcm(IV, 0, 5, 5 + TAG - 1) == SPADESWIRL_SHORT_OUTPUT && gcm(IV, 0, 5, 5 + TAG) == SPADESWIRL_DONE
         && spadeswirl_gcm_decrypt(zeros, K, zeros, IV, NULL, 0, out, 5, out + 5, TAG - 1, block, 5) == SPADESWIRL_BAD_LAYOUT
         && spadeswirl_gcm_decrypt(zeros, K, zeros, IV, NULL, 0, out, 5, out + 5, TAG, block, 5) == SPADESWIRL_DONE);
    says("NOT_AUTHENTIC", spadeswirl_gcm_decrypt(zeros, K, zeros, IV, NULL, 0, out, 5, zeros, TAG, block, 5) == SPADESWIRL_NOT_AUTHENTIC);
    says("WRAPPED_BYTES", spadeswirl_wrap(zeros, K, zeros, K, out, WRAPPED - 1) == SPADESWIRL_SHORT_OUTPUT
         && spadeswirl_wrap(zeros, K, zeros, K, out, WRAPPED) == SPADESWIRL_DONE);
    says("BAD_WRAPPED_LENGTH", spadeswirl_unwrap(zeros, K, zeros, WRAPPED - 1, out + WRAPPED, K) == SPADESWIRL_BAD_WRAPPED_LENGTH
         && spadeswirl_unwrap(zeros, K, zeros, WRAPPED + 1, out + WRAPPED, K) == SPADESWIRL_BAD_WRAPPED_LENGTH
         && spadeswirl_unwrap(zeros, K, out, WRAPPED, out + WRAPPED, K) == SPADESWIRL_DONE);
}

static void tables(void)
{
    uint64_t use = 0;
    says("ROWS_MAX, TABLE_MAX", rows(SPADESWIRL_ROWS_MAX) == SPADESWIRL_TABLE_MAX
         && spadeswirl_table_check(table, SPADESWIRL_TABLE_MAX) == SPADESWIRL_DONE);
    says("BAD_TABLE", spadeswirl_table_check(table, rows(SPADESWIRL_ROWS_MAX + 1)) == SPADESWIRL_BAD_TABLE);
    says("CCM, TYPE_DATA", only(0, SPADESWIRL_TYPE_DATA, SPADESWIRL_CCM));
    says("GCM, TYPE_DATA", only(1, SPADESWIRL_TYPE_DATA, SPADESWIRL_GCM));
    says("KEK, KEK_DS_SAI of a row", only(2, SPADESWIRL_KEK_DS_SAI, SPADESWIRL_KEK));
    says("KEK, KEK_ASSIGNED of a row", only(5, SPADESWIRL_KEK_ASSIGNED, SPADESWIRL_KEK));
    says("NO_ROW", use_of(9, SPADESWIRL_TYPE_DATA, &use) == SPADESWIRL_NO_ROW && seal(2, 0, 0, sizeof out) == SPADESWIRL_NO_ROW);
    says("NOT_PERMITTED of a type", use_of(0, SPADESWIRL_KEK_ASSIGNED + 1, &use) == SPADESWIRL_NOT_PERMITTED
         && use_of(0, UINT16_MAX, &use) == SPADESWIRL_NOT_PERMITTED);
    says("NAME_MAX", spadeswirl_find(table, rows(1), SPADESWIRL_TYPE_DATA, zeros, NAME, &use) == SPADESWIRL_DONE
         && spadeswirl_find(table, rows(1), SPADESWIRL_TYPE_DATA, zeros, NAME + 1, &use) == SPADESWIRL_OVER_MAXIMUM);
    says("AAD_MAX", seal(0, SPADESWIRL_AAD_MAX, 0, 0) == SPADESWIRL_SHORT_OUTPUT
         && seal(0, SPADESWIRL_AAD_MAX + 1, 0, 0) == SPADESWIRL_OVER_MAXIMUM);
    says("OTHER_USE", seal(0, 0, 0, sizeof out) == SPADESWIRL_DONE && open_by_use(SPADESWIRL_CCM) == SPADESWIRL_DONE
         && open_by_use(SPADESWIRL_GCM) == SPADESWIRL_OTHER_USE);
    says("RECORD_BYTES", seal(1, 0, 5, SPADESWIRL_RECORD_BYTES(NAME, 5) - 1) == SPADESWIRL_SHORT_OUTPUT
         && seal(1, 0, 5, SPADESWIRL_RECORD_BYTES(NAME, 5)) == SPADESWIRL_DONE
         && spadeswirl_record_check(out, SPADESWIRL_RECORD_BYTES(NAME, 5)) == SPADESWIRL_DONE);
    says("RECORD_HEADER_BYTES", out[SPADESWIRL_RECORD_HEADER_BYTES - 1] != 1 && out[SPADESWIRL_RECORD_HEADER_BYTES] == 1);
    says("RECORD_MAX", seal(1, 0, SPADESWIRL_TEXT_MAX, sizeof out) == SPADESWIRL_DONE
         && spadeswirl_record_check(LENT(out)) == SPADESWIRL_DONE);
}

static void pages(void)
{
    static const uint64_t wanted[SPADESWIRL_FIELDS] = {
        [SPADESWIRL_FIELD_SCOPE] = 2, [SPADESWIRL_FIELD_LOCK] = 1, [SPADESWIRL_FIELD_CEEM] = 2, [SPADESWIRL_FIELD_RDMC] = 3, [SPADESWIRL_FIELD_SDK] = 0,
        [SPADESWIRL_FIELD_CKOD] = 1, [SPADESWIRL_FIELD_CKORP] = 0, [SPADESWIRL_FIELD_CKORL] = 1, [SPADESWIRL_FIELD_ENCRYPTION_MODE] = 1,
        [SPADESWIRL_FIELD_DECRYPTION_MODE] = 3, [SPADESWIRL_FIELD_ALGORITHM_INDEX] = SPADESWIRL_GCM, [SPADESWIRL_FIELD_KEY_FORMAT] = SPADESWIRL_FORMAT_REFERENCE,
        [SPADESWIRL_FIELD_KEY_LENGTH] = SPADESWIRL_REFERENCE_MIN, [SPADESWIRL_FIELD_DESCRIPTORS] = 1
    };
    static const uint8_t reserved[] = { 0x30, 0, 0, 0 };
    uint64_t count = 0;
    says("PAGE_MAX", page(SPADESWIRL_FORMAT_REFERENCE, 0, SPADESWIRL_REFERENCE_MIN, SPADESWIRL_PAGE_MAX) == SPADESWIRL_DONE);
    says("the places of the fields", memcmp(fields, wanted, sizeof fields) == 0);
    says("PAGE_MAX and one more",
         page(SPADESWIRL_FORMAT_REFERENCE, 0, SPADESWIRL_REFERENCE_MIN, SPADESWIRL_PAGE_MAX + 1) == SPADESWIRL_OVER_MAXIMUM);
    says("REFERENCE_MIN", page_with(SPADESWIRL_FORMAT_REFERENCE, 0, SPADESWIRL_REFERENCE_MIN - 1) == SPADESWIRL_BAD_LAYOUT);
    says("FORMAT_KEY", page_with(SPADESWIRL_FORMAT_KEY, 0, K) == SPADESWIRL_DONE
         && page_with(SPADESWIRL_FORMAT_KEY, 0, K - 1) == SPADESWIRL_BAD_LAYOUT);
    says("KEK_DS_SAI", page_with(SPADESWIRL_FORMAT_WRAPPED, SPADESWIRL_KEK_DS_SAI, 5 + WRAPPED) == SPADESWIRL_DONE);
    says("KEK_ASSIGNED", page_with(SPADESWIRL_FORMAT_WRAPPED, SPADESWIRL_KEK_ASSIGNED, 5 + WRAPPED) == SPADESWIRL_DONE);
    says("NOT_PERMITTED", page_with(SPADESWIRL_FORMAT_WRAPPED, 3, 5 + WRAPPED) == SPADESWIRL_NOT_PERMITTED
         && page_with(2, 0, K) == SPADESWIRL_NOT_PERMITTED);
    says("BAD_LAYOUT of a reserved type", spadeswirl_list_check(LENT(reserved), 0, &count) == SPADESWIRL_BAD_LAYOUT
         && spadeswirl_list_check(LENT(reserved), 1, &count) == SPADESWIRL_BAD_LAYOUT
         && spadeswirl_list_check_as(LENT(reserved), 0, 1, &count) == SPADESWIRL_BAD_LAYOUT
         && spadeswirl_list_check_as(LENT(reserved), 1, 1, &count) == SPADESWIRL_BAD_LAYOUT);
    says("DONE of a reserved type, where that is asked for", spadeswirl_list_check_as(LENT(reserved), 0, 0, &count) == SPADESWIRL_DONE && count == 0
         && spadeswirl_list_check_as(LENT(reserved), 1, 0, &count) == SPADESWIRL_DONE && count == 0);
    says("LABEL_MAX", label(SPADESWIRL_LABEL_MAX, &count) == SPADESWIRL_DONE && count == 4
         && label(SPADESWIRL_LABEL_MAX + 1, &count) == SPADESWIRL_OVER_MAXIMUM);
}

/* A page whose wrapped key is carried, and one whose key is wrapped by a row of that type: both read as they were written. */
static void written(void)
{
    static const uint64_t chosen[SPADESWIRL_FIELDS_CHOSEN] = {
        [SPADESWIRL_FIELD_SCOPE] = 2, [SPADESWIRL_FIELD_RDMC] = 3, [SPADESWIRL_FIELD_CKORL] = 1, [SPADESWIRL_FIELD_ENCRYPTION_MODE] = 2,
        [SPADESWIRL_FIELD_ALGORITHM_INDEX] = SPADESWIRL_CCM, [SPADESWIRL_FIELD_KEY_FORMAT] = SPADESWIRL_FORMAT_WRAPPED
    };
    static const uint8_t part[4 + 3 + WRAPPED] = { 0, SPADESWIRL_KEK_ASSIGNED, 0, 3, 'A', 'B', 'C' }, list[] = { 0xc0, 0, 0, 1, 9 };
    uint64_t at[SPADESWIRL_PARTS + 1] = { [SPADESWIRL_PARTS] = 99 }, n = 0, other[SPADESWIRL_FIELDS_CHOSEN];
    uint8_t name[NAME] = { 2 };
    size_t wrapped_len = SPADESWIRL_PAGE_HEADER_BYTES + 4 + NAME + WRAPPED + sizeof list;
    says("FIELDS_CHOSEN", SPADESWIRL_FIELDS_CHOSEN == 12 && spadeswirl_page_write(chosen, LENT(part), LENT(list), LENT(out), &n) == SPADESWIRL_DONE
         && n == SPADESWIRL_PAGE_HEADER_BYTES + sizeof part + sizeof list && spadeswirl_page_read(out, n, fields) == SPADESWIRL_DONE
         && memcmp(fields, chosen, sizeof chosen) == 0 && fields[SPADESWIRL_FIELDS_CHOSEN] == sizeof part);
    says("PARTS", SPADESWIRL_PARTS == 4 && spadeswirl_page_parts(out, n, at) == SPADESWIRL_DONE && at[SPADESWIRL_PARTS] == 99);
    says("PART_LIST", memcmp(out + at[SPADESWIRL_PART_LIST], list, sizeof list) == 0 && at[SPADESWIRL_PART_LIST] + sizeof list == n);
    says("PART_KEK_TYPE", at[SPADESWIRL_PART_KEK_TYPE] == SPADESWIRL_KEK_ASSIGNED);
    says("PART_IDENTIFIER", memcmp(out + at[SPADESWIRL_PART_IDENTIFIER], "ABC", 3) == 0);
    says("PART_WRAPPED", at[SPADESWIRL_PART_IDENTIFIER] + 3 == at[SPADESWIRL_PART_WRAPPED] && at[SPADESWIRL_PART_WRAPPED] + WRAPPED == at[SPADESWIRL_PART_LIST]);
    says("BAD_WRAPPED_LENGTH of a page", spadeswirl_page_write(chosen, part, sizeof part - 1, NULL, 0, LENT(out), &n) == SPADESWIRL_BAD_WRAPPED_LENGTH);
    says("KEK_DS_SAI of a page that is written", spadeswirl_page_write_wrapped(table, rows(6), chosen, SPADESWIRL_KEK_DS_SAI, LENT(name), zeros, K, LENT(list),
         LENT(out), &n) == SPADESWIRL_DONE && n == wrapped_len && spadeswirl_page_load(table, rows(6), out, n, out + n, K, fields) == SPADESWIRL_DONE);
    says("NO_ROW of a page that is written", spadeswirl_page_write_wrapped(table, rows(6), chosen, SPADESWIRL_KEK_ASSIGNED, LENT(name), zeros, K, LENT(list),
         LENT(out), &n) == SPADESWIRL_NO_ROW);
    memcpy(other, chosen, sizeof other);
    other[SPADESWIRL_FIELD_KEY_FORMAT] = SPADESWIRL_FORMAT_KEY;
    says("NOT_PERMITTED of a format", spadeswirl_page_write_wrapped(table, rows(6), other, SPADESWIRL_KEK_DS_SAI, LENT(name), zeros, K, LENT(list), LENT(out), &n)
         == SPADESWIRL_NOT_PERMITTED && spadeswirl_page_write(other, zeros, K, NULL, 0, LENT(out), &n) == SPADESWIRL_DONE);
}

static void sessions(void)
{
    struct spadeswirl_session session;
    uint8_t iv[IV];
    spadeswirl_session_start(&session, 0x01020304, UINT64_MAX);
    says("PREFIX_BYTES", spadeswirl_session_issue(&session, LENT(iv)) == SPADESWIRL_DONE && iv[SPADESWIRL_PREFIX_BYTES - 1] == 4
         && iv[SPADESWIRL_PREFIX_BYTES] == 255);
    says("SESSION_SPENT", spadeswirl_session_issue(&session, LENT(iv)) == SPADESWIRL_SESSION_SPENT);
}

int main(void)
{
    ciphers();
    tables();
    pages();
    written();
    sessions();
    return 0;
}
