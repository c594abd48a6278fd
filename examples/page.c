/*
 * Loads keys from key pages of the three formats, wrapped ones by two key-encrypting keys of one name, which differ in
 * their type. Then it shows each refusal that a load can give, 1 to 9, tests a descriptor list, strict and not, and runs
 * an IV session to its end, 10. A line says what was tried, and the number that came with its meaning. The number that is
 * expected stands beside each call below; the program ends with status 1 where another came, or where a refusal changed
 * the output. Built and run by `examples/run page`; examples/page.txt is what it prints.
 */
#include "answers.h"

enum { HEAD = SPADESWIRL_PAGE_HEADER_BYTES };
enum { PLAIN_KEY = SPADESWIRL_FORMAT_KEY, REFERENCE = SPADESWIRL_FORMAT_REFERENCE, WRAPPED_KEY = SPADESWIRL_FORMAT_WRAPPED };

/* KEK types. */
enum { DS_SAI = SPADESWIRL_KEK_DS_SAI, ASSIGNED = SPADESWIRL_KEK_ASSIGNED };

static uint8_t table[TABLE(4)], page[256];
static uint64_t fields[SPADESWIRL_FIELDS];

/* A page with this KEY part, and one descriptor after it. Answers its length. */
static size_t set_page(uint8_t format, struct bytes key)
{
    static const uint8_t descriptor[] = { 0x01, 0, 0, 4, 'r', 'e', 'e', 'l' };
    size_t len = HEAD + key.len + sizeof descriptor;
    memset(page, 0, sizeof page);
    page[1] = 0x10, page[3] = (uint8_t)(len - 4);
    page[4] = 2 << 5 | 1;
    page[6] = 2, page[7] = 2, page[8] = GCM, page[9] = format;
    page[19] = (uint8_t)key.len;
    memcpy(page + HEAD, key.at, key.len);
    memcpy(page + HEAD + key.len, descriptor, sizeof descriptor);
    return len;
}

/* A KEY part of format 04h: KEK type, the identifier's length, the identifier, and the wrapped key. */
static struct bytes wrapped_part(uint8_t type, const char *identifier, struct bytes wrapped)
{
    static uint8_t part[128];
    struct bytes all = { part, 4 + strlen(identifier) + wrapped.len };
    part[1] = type, part[3] = (uint8_t)strlen(identifier);
    memcpy(part + 4, identifier, strlen(identifier));
    memcpy(part + 4 + strlen(identifier), wrapped.at, wrapped.len);
    return all;
}

static uint8_t load(size_t len, size_t room)
{
    return spadeswirl_page_load(table, sizeof table, page, len, fresh_out(), room, fields);
}

static uint8_t load_wrapped(uint8_t type, const char *identifier, struct bytes wrapped)
{
    return load(set_page(WRAPPED_KEY, wrapped_part(type, identifier, wrapped)), SPADESWIRL_KEY_BYTES);
}

/* A key, and its 40 bytes when it is wrapped by SITE-KEK1 of either type. */
struct key {
    struct bytes itself, by_ds_sai, by_assigned;
};

static void loads(struct key key)
{
    static const char *const names[] = { "scope", "lock", "CEEM", "RDMC", "SDK", "CKOD", "CKORP", "CKORL", "encryption mode",
        "decryption mode", "algorithm index", "key format", "KEY LENGTH", "descriptors" };
    struct bytes loaded = { out, SPADESWIRL_KEY_BYTES }, sent = { page, 0 };

    puts("\nloaded:");
    expect("a page with the key itself", SPADESWIRL_DONE, load(set_page(PLAIN_KEY, key.itself), 32));
    expect("a page with a reference, VENDOR  TAPE1", SPADESWIRL_DONE, load(set_page(REFERENCE, text("VENDOR  TAPE1")), 32));
    show("the key of that row", loaded);
    sent.len = set_page(WRAPPED_KEY, wrapped_part(ASSIGNED, "SITE-KEK1", key.by_assigned));
    show("a page with the key wrapped by SITE-KEK1, KEK type 2", sent);
    expect("that page", SPADESWIRL_DONE, load(sent.len, 32));
    show("the key that was wrapped", loaded);
    sent.len = set_page(WRAPPED_KEY, wrapped_part(DS_SAI, "SITE-KEK1", key.by_ds_sai));
    show("a page with the key wrapped by SITE-KEK1, KEK type 1", sent);
    expect("that page", SPADESWIRL_DONE, load(sent.len, 32));
    show("the key once more", loaded);
    for (int i = 0; i < SPADESWIRL_FIELDS; i++)
        printf("%s %u%s", names[i], (unsigned)fields[i],
               i == SPADESWIRL_FIELD_CKORL || i == SPADESWIRL_FIELD_DESCRIPTORS ? "\n" : ", ");
}

static void refused(struct key key)
{
    uint8_t changed[SPADESWIRL_WRAPPED_BYTES];
    struct bytes plain = key.itself, wrapped = key.by_ds_sai, w;
    size_t len;

    puts("\nrefused:");
    table[3] = 5;
    expect("by a table whose header counts one row too many", SPADESWIRL_BAD_TABLE, load(set_page(PLAIN_KEY, plain), 32));
    table[3] = 4, table[TABLE(0) + 3] = SPADESWIRL_TYPE_DATA;
    expect("by a table whose first row, a KEK's, has no type", SPADESWIRL_BAD_TABLE, load(set_page(PLAIN_KEY, plain), 32));
    table[TABLE(0) + 3] = DS_SAI;
    expect("a page one byte short", SPADESWIRL_BAD_LAYOUT, load(set_page(PLAIN_KEY, plain) - 1, 32));
    w = plain, w.len = 31;
    expect("a key of 31 bytes", SPADESWIRL_BAD_LAYOUT, load(set_page(PLAIN_KEY, w), 32));
    len = set_page(PLAIN_KEY, plain), page[HEAD + plain.len] = 0x30;
    expect("a descriptor of type 30h, which is reserved", SPADESWIRL_BAD_LAYOUT, load(len, 32));
    expect("the same, and an output of 31 bytes", SPADESWIRL_BAD_LAYOUT, load(len, 31));
    len = set_page(PLAIN_KEY, plain), page[4] = 3 << 5;
    expect("SCOPE 3", SPADESWIRL_NOT_PERMITTED, load(len, 32));
    expect("KEY FORMAT 02h", SPADESWIRL_NOT_PERMITTED, load(set_page(0x02, plain), 32));
    expect("KEK type 3", SPADESWIRL_NOT_PERMITTED, load_wrapped(3, "SITE-KEK1", wrapped));
    expect("an identifier of 33 bytes", SPADESWIRL_OVER_MAXIMUM,
           load_wrapped(DS_SAI, "a name of thirty-three letters...", wrapped));
    expect("an output of 31 bytes", SPADESWIRL_SHORT_OUTPUT, load(set_page(PLAIN_KEY, plain), 31));
    expect("wrapped by SITE-KEK10, which no row has", SPADESWIRL_NO_ROW, load_wrapped(DS_SAI, "SITE-KEK10", wrapped));
    expect("wrapped by SITE-KEK2, KEK type 1, and its row has type 2", SPADESWIRL_NO_ROW,
           load_wrapped(DS_SAI, "SITE-KEK2", wrapped));
    expect("wrapped by VENDOR  TAPE1, whose row is for GCM", SPADESWIRL_NO_ROW,
           load_wrapped(DS_SAI, "VENDOR  TAPE1", wrapped));
    expect("a reference, SITE-KEK1, which only KEKs have", SPADESWIRL_NO_ROW, load(set_page(REFERENCE, text("SITE-KEK1")), 32));
    len = set_page(REFERENCE, text("VENDOR  TAPE1")), page[8] = CCM;
    expect("a reference for CCM, and VENDOR  TAPE1 is for GCM", SPADESWIRL_OTHER_USE, load(len, 32));
    w = wrapped, w.len = 24;
    expect("a wrapped key of 24 bytes", SPADESWIRL_BAD_WRAPPED_LENGTH, load_wrapped(DS_SAI, "SITE-KEK1", w));
    memcpy(changed, wrapped.at, sizeof changed);
    changed[20] ^= 1, w.at = changed, w.len = sizeof changed;
    expect("one bit of the wrapped key changed", SPADESWIRL_NOT_AUTHENTIC, load_wrapped(DS_SAI, "SITE-KEK1", w));
    expect("wrapped by SITE-KEK1 of type 2, on a page of KEK type 1", SPADESWIRL_NOT_AUTHENTIC,
           load_wrapped(DS_SAI, "SITE-KEK1", key.by_assigned));
}

static void lists(void)
{
    static const uint8_t list[] = { 0x00, 0, 0, 1, 7, 0x30, 0, 0, 1, 42, 0xc0, 0, 0, 2, 8, 9 };
    uint64_t count = 0, at[2] = { 0, 0 };

    puts("\na page's descriptor list by itself, with types 00h, 30h and C0h:");
    fresh_out();
    expect("tested strict, as on a page", SPADESWIRL_BAD_LAYOUT, spadeswirl_list_check(list, sizeof list, 0, &count));
    expect("tested not strict", SPADESWIRL_DONE, spadeswirl_list_check_as(list, sizeof list, 0, 0, &count));
    for (uint64_t i = 0; i < count; i++) {
        expect("a step, not strict", SPADESWIRL_DONE, spadeswirl_list_step(list, sizeof list, 0, 0, at[1], at));
        printf("type %02Xh, bytes %u-%u\n", list[at[0]], (unsigned)at[0], (unsigned)at[1] - 1);
    }
}

static void session(void)
{
    struct spadeswirl_session s;
    struct bytes iv = { out, SPADESWIRL_IV_BYTES };

    puts("\nan IV session:");
    expect("started at 2^64 - 2", SPADESWIRL_DONE, spadeswirl_session_start(&s, 0x0a0b0c0d, UINT64_MAX - 1));
    expect("an IV into 11 bytes", SPADESWIRL_SHORT_OUTPUT, spadeswirl_session_issue(&s, fresh_out(), 11));
    expect("an IV", SPADESWIRL_DONE, spadeswirl_session_issue(&s, fresh_out(), 12));
    show("the first IV", iv);
    expect("another", SPADESWIRL_DONE, spadeswirl_session_issue(&s, fresh_out(), 12));
    show("the second IV", iv);
    expect("a third", SPADESWIRL_SESSION_SPENT, spadeswirl_session_issue(&s, fresh_out(), 12));
}

static uint8_t wrap(const uint8_t *row, struct bytes key, uint8_t wrapped[SPADESWIRL_WRAPPED_BYTES])
{
    return spadeswirl_wrap(row + 40, SPADESWIRL_KEY_BYTES, LENT(key), wrapped, SPADESWIRL_WRAPPED_BYTES);
}

int main(void)
{
    uint8_t itself[SPADESWIRL_KEY_BYTES], by_ds_sai[SPADESWIRL_WRAPPED_BYTES], by_assigned[SPADESWIRL_WRAPPED_BYTES];
    struct key key = { BYTES(itself), BYTES(by_ds_sai), BYTES(by_assigned) };
    struct bytes t = BYTES(table);
    const uint8_t *ds_sai, *assigned;

    begin_table(table, 4);
    ds_sai = set_kek(table, 0, "SITE-KEK1", DS_SAI, 0x40);
    assigned = set_kek(table, 1, "SITE-KEK1", ASSIGNED, 0x60);
    set_kek(table, 2, "SITE-KEK2", ASSIGNED, 0xa0);
    set_row(table, 3, "VENDOR  TAPE1", GCM, 0x00);
    show("the key table", t);
    for (unsigned i = 0; i < sizeof itself; i++)
        itself[i] = (uint8_t)(0x80 + i);
    fresh_out();
    expect("a key wrapped by SITE-KEK1 of type 1", SPADESWIRL_DONE, wrap(ds_sai, key.itself, by_ds_sai));
    expect("and by SITE-KEK1 of type 2", SPADESWIRL_DONE, wrap(assigned, key.itself, by_assigned));
    loads(key);
    refused(key);
    lists();
    session();
    putchar('\n');
    return all_as_expected();
}
