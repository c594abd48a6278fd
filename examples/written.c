/*
 * What a library controller does that passes keys on. It wraps a key into a page, reads and loads that page, takes it apart
 * and writes it again, and wraps the loaded key by another key-encrypting key of the same name. Then it writes pages of the
 * other formats, and shows each refusal of writing, 2 to 5 and 8, and of wrapping, 1 to 6. A line says what was tried, and
 * the number that came with its meaning. The number that is expected stands beside each call below; the program ends with
 * status 1 where another came, where a refusal changed the output or the length, or where bytes differ that are to be the
 * same. Built and run by `examples/run written`; examples/written.txt is what it prints.
 */
#include "answers.h"

enum { HEAD = SPADESWIRL_PAGE_HEADER_BYTES, LIST = SPADESWIRL_PART_LIST, KEK_TYPE = SPADESWIRL_PART_KEK_TYPE };
enum { SCOPE = SPADESWIRL_FIELD_SCOPE, LOCK = SPADESWIRL_FIELD_LOCK, KEY_FORMAT = SPADESWIRL_FIELD_KEY_FORMAT };
enum { PLAIN_KEY = SPADESWIRL_FORMAT_KEY, REFERENCE = SPADESWIRL_FORMAT_REFERENCE, WRAPPED_KEY = SPADESWIRL_FORMAT_WRAPPED };

/* KEK types. */
enum { DS_SAI = SPADESWIRL_KEK_DS_SAI, ASSIGNED = SPADESWIRL_KEK_ASSIGNED };

/* What a page is written from: the fields of a read, descriptors end to end, and a KEY part or what one is wrapped from. */
struct writing {
    uint64_t fields[SPADESWIRL_FIELDS_CHOSEN];
    struct bytes list, part, table, identifier, key;
    uint16_t type;
};

/* What is stored: the fields of a page that is read, and the length of one that is written. No page has a length of 7. */
static uint64_t fields[SPADESWIRL_FIELDS], length;

static uint8_t write_page(struct writing w, size_t room)
{
    length = 7;
    return spadeswirl_page_write(w.fields, LENT(w.part), LENT(w.list), fresh_out(), room, &length);
}

static uint8_t wrap_page(struct writing w, size_t room)
{
    length = 7;
    return spadeswirl_page_write_wrapped(LENT(w.table), w.fields, w.type, LENT(w.identifier), LENT(w.key), LENT(w.list),
                                         fresh_out(), room, &length);
}

/* A line on one of these two. A refusal leaves the length as it was, too. */
static void expect_page(const char *tried, uint8_t expected, uint8_t number)
{
    expect(tried, expected, number);
    if (number != SPADESWIRL_DONE && length != 7)
        surprises++, printf("    but the length was changed\n");
}

static void expect_same(const char *what, struct bytes one, struct bytes other)
{
    int same = one.len == other.len && memcmp(one.at, other.at, one.len) == 0;
    printf("%s: %s\n", what, same ? "the same bytes" : "other bytes");
    surprises += !same;
}

/* The front of the output, kept apart: the next call writes over it, and what a call reads may not be what it writes. */
static struct bytes kept(uint8_t *at, uint64_t len)
{
    struct bytes b = { at, (size_t)len };
    memcpy(at, out, b.len);
    return b;
}

/* Loads a page by the table of what it was written from, and answers the key, which is to be the one that was written. */
static struct bytes load(struct writing from, struct bytes page)
{
    static uint8_t key[SPADESWIRL_KEY_BYTES];
    struct bytes loaded = { out, sizeof key };
    expect("loaded", SPADESWIRL_DONE, spadeswirl_page_load(LENT(from.table), LENT(page), fresh_out(), sizeof key, fields));
    expect_same("the key and what was loaded", from.key, loaded);
    return kept(key, sizeof key);
}

static void read_page(struct bytes page)
{
    static const char *const names[] = { "scope", "lock", "CEEM", "RDMC", "SDK", "CKOD", "CKORP", "CKORL", "encryption mode",
        "decryption mode", "algorithm index", "key format", "KEY LENGTH", "descriptors" };
    fresh_out();
    expect("read", SPADESWIRL_DONE, spadeswirl_page_read(LENT(page), fields));
    for (int i = 0; i < SPADESWIRL_FIELDS; i++)
        printf("%s %u%s", names[i], (unsigned)fields[i],
               i == SPADESWIRL_FIELD_CKORL || i == SPADESWIRL_FIELD_DESCRIPTORS ? "\n" : ", ");
}

/* What a page that was read is written again from, in place of what it was written from. No table and no key are needed. */
static void take_apart(struct bytes page, struct writing *w)
{
    static uint8_t descriptors[sizeof out];
    uint64_t at[SPADESWIRL_PARTS] = { HEAD }, step[2] = { 0, 0 };
    struct bytes list = page;

    fresh_out();
    expect("taken apart", SPADESWIRL_DONE, spadeswirl_page_parts(LENT(page), at));
    printf("list at %u, KEK type %u, identifier at %u, wrapped key at %u\n", (unsigned)at[LIST], (unsigned)at[KEK_TYPE],
           (unsigned)at[SPADESWIRL_PART_IDENTIFIER], (unsigned)at[SPADESWIRL_PART_WRAPPED]);
    memcpy(w->fields, fields, sizeof w->fields);
    w->part.at = page.at + HEAD, w->part.len = at[LIST] - HEAD;
    w->list.at = descriptors, w->list.len = 0;
    list.at += at[LIST], list.len -= at[LIST];
    for (uint64_t i = 0; i < fields[SPADESWIRL_FIELD_DESCRIPTORS]; i++) {
        expect("a step along its list", SPADESWIRL_DONE, spadeswirl_list_step(LENT(list), 0, 1, step[1], step));
        printf("type %02Xh, bytes %u-%u\n", list.at[step[0]], (unsigned)step[0], (unsigned)step[1] - 1);
        memcpy(descriptors + w->list.len, list.at + step[0], step[1] - step[0]);
        w->list.len += step[1] - step[0];
    }
}

static void writing_refused(struct writing right, size_t size)
{
    static const uint8_t of_30h[] = { 0x30, 0, 0, 1, 42 };
    static uint8_t many[SPADESWIRL_PAGE_MAX];
    struct writing w;

    puts("\nwriting refused:");
    w = right, w.fields[KEY_FORMAT] = PLAIN_KEY, w.part = w.key, w.part.len--;
    expect_page("a key of 31 bytes", SPADESWIRL_BAD_LAYOUT, write_page(w, sizeof out));
    w = right, w.list.at = of_30h, w.list.len = sizeof of_30h;
    expect_page("a descriptor of type 30h, which is reserved", SPADESWIRL_BAD_LAYOUT, write_page(w, sizeof out));
    w = right, w.fields[SCOPE] = 3;
    expect_page("SCOPE 3", SPADESWIRL_NOT_PERMITTED, write_page(w, sizeof out));
    w = right, w.fields[LOCK] = 2;
    expect_page("LOCK 2, which is too wide for its bit", SPADESWIRL_NOT_PERMITTED, write_page(w, sizeof out));
    w = right, w.fields[KEY_FORMAT] = 0x104;
    expect_page("KEY FORMAT 104h, which is too wide for its byte", SPADESWIRL_NOT_PERMITTED, write_page(w, sizeof out));
    w = right, w.list.at = many, w.list.len = SPADESWIRL_PAGE_MAX + 1 - HEAD - w.part.len;
    many[2] = (uint8_t)((w.list.len - 4) >> 8), many[3] = (uint8_t)(w.list.len - 4);
    expect_page("a page of 4,097 bytes", SPADESWIRL_OVER_MAXIMUM, write_page(w, sizeof out));
    expect_page("an output one byte short", SPADESWIRL_SHORT_OUTPUT, write_page(right, size - 1));
    w = right, w.part.len--;
    expect_page("a wrapped key of 39 bytes", SPADESWIRL_BAD_WRAPPED_LENGTH, write_page(w, sizeof out));
}

static void wrapping_refused(struct writing right, size_t size)
{
    uint8_t broken[TABLE(3)];
    struct writing w;

    puts("\nwrapping refused:");
    memcpy(broken, right.table.at, sizeof broken);
    broken[3] = 4;
    w = right, w.table.at = broken;
    expect_page("by a table whose header counts one row too many", SPADESWIRL_BAD_TABLE, wrap_page(w, sizeof out));
    w = right, w.key.len--;
    expect_page("a key of 31 bytes", SPADESWIRL_BAD_LAYOUT, wrap_page(w, sizeof out));
    w = right, w.type = SPADESWIRL_TYPE_DATA;
    expect_page("type 0, which is a data row's", SPADESWIRL_NOT_PERMITTED, wrap_page(w, sizeof out));
    w = right, w.identifier = text("a name of thirty-three letters...");
    expect_page("an identifier of 33 bytes", SPADESWIRL_OVER_MAXIMUM, wrap_page(w, sizeof out));
    expect_page("an output one byte short", SPADESWIRL_SHORT_OUTPUT, wrap_page(right, size - 1));
    w = right, w.identifier = text("SITE-KEK10");
    expect_page("by SITE-KEK10, which no row has", SPADESWIRL_NO_ROW, wrap_page(w, sizeof out));
}

int main(void)
{
    static const uint8_t descriptor[] = { 0x01, 0, 0, 4, 'r', 'e', 'e', 'l' };
    static uint8_t table[TABLE(3)], key[SPADESWIRL_KEY_BYTES], page[sizeof out], other[sizeof out];
    struct writing w = { .fields = { 2, 1, 1, 2, 0, 1, 0, 0, 2, 2, GCM, WRAPPED_KEY }, .list = BYTES(descriptor),
        .table = BYTES(table), .identifier = TEXT("SITE-KEK1"), .key = BYTES(key), .type = DS_SAI }, next;
    struct bytes sent;

    begin_table(table, 3);
    set_kek(table, 0, "SITE-KEK1", DS_SAI, 0x40);
    set_kek(table, 1, "SITE-KEK1", ASSIGNED, 0x60);
    set_row(table, 2, "VENDOR  TAPE1", GCM, 0x00);
    for (unsigned i = 0; i < sizeof key; i++)
        key[i] = (uint8_t)(0x80 + i);
    show("the key table", w.table);
    show("the identifier", w.identifier);
    show("the key", w.key);
    show("the descriptor", w.list);
    puts("\nwrapped by SITE-KEK1 of type 1:");
    expect_page("a page with the key", SPADESWIRL_DONE, wrap_page(w, sizeof out));
    sent = kept(page, length);
    show("the page of KEK type 1", sent);
    read_page(sent);
    w.key = load(w, sent);
    show("the key that came back", w.key);
    puts("\nwritten again:");
    take_apart(sent, &w);
    expect_page("a page with these parts", SPADESWIRL_DONE, write_page(w, sizeof out));
    expect_same("the page and what was written again", sent, kept(other, length));
    puts("\npassed on, wrapped by SITE-KEK1 of type 2:");
    next = w, next.type = ASSIGNED;
    expect_page("a page with the key that came back", SPADESWIRL_DONE, wrap_page(next, sizeof out));
    show("the page of KEK type 2", kept(other, length));
    load(next, kept(other, length));
    puts("\nwith the other formats:");
    next = w, next.fields[KEY_FORMAT] = PLAIN_KEY, next.part = w.key;
    expect_page("a page with the key itself", SPADESWIRL_DONE, write_page(next, sizeof out));
    load(next, kept(other, length));
    next.fields[KEY_FORMAT] = REFERENCE, next.part = text("VENDOR  TAPE1"), next.list.len = 0;
    expect_page("a page with a reference, VENDOR  TAPE1, and no descriptor", SPADESWIRL_DONE, write_page(next, sizeof out));
    show("the page with a reference", kept(other, length));
    writing_refused(w, sent.len);
    wrapping_refused(w, sent.len);
    putchar('\n');
    return all_as_expected();
}
