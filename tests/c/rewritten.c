/*
 * rewritten SEED: key pages by the C interface, from the seed. Pages of every format are written, read, taken apart, stepped
 * along, loaded and written again, and each time compared with what went in. Then pages are built here byte by byte, of any
 * fields, parts and lists: writing says of each what reading says, and those that are read come back as the same bytes.
 */
#include "cases.h"
#include "spadeswirl.h"

#define HEAD SPADESWIRL_PAGE_HEADER_BYTES
#define CHOSEN SPADESWIRL_FIELDS_CHOSEN
#define KEY SPADESWIRL_KEY_BYTES
#define WRAPPED SPADESWIRL_WRAPPED_BYTES
#define MOST SPADESWIRL_PAGE_MAX
#define PAGES 3000
#define BUILT 6000

/* What was lent for a page and not written, and the bytes before and after it that no call may touch. */
#define FILL 0xa5
#define AROUND 8

static const unsigned formats[] = { SPADESWIRL_FORMAT_KEY, SPADESWIRL_FORMAT_REFERENCE, SPADESWIRL_FORMAT_WRAPPED };
static const uint64_t highest[CHOSEN - 2] = { 2, 1, 3, 3, 1, 1, 1, 1, 2, 3 };

static uint64_t state;
static char page_name[64];
static uint8_t room[AROUND + MOST + AROUND], *const out = room + AROUND;
static uint8_t table[SPADESWIRL_TABLE_MAX];
static size_t table_len;

/* What a page is made of. */
static struct {
    uint64_t fields[CHOSEN];
    uint8_t part[100], list[MOST];
    size_t part_len, list_len;
    uint64_t count;
} made;

static void says(int holds, const char *what)
{
    expect(holds, page_name, what);
}

/* xorshift64: any stream of bytes serves. */
static size_t below(size_t n)
{
    state ^= state << 13;
    state ^= state >> 7;
    state ^= state << 17;
    return (size_t)(state >> 24) % n;
}

static void some(uint8_t *at, size_t n)
{
    for (size_t i = 0; i < n; i++)
        at[i] = (uint8_t)below(256);
}

/* Rows in threes, of one name each: a data row and key-encrypting keys of both types; the last three may lack one or two. */
static void any_table(void)
{
    size_t rows = below(SPADESWIRL_ROWS_MAX + 1);
    memset(table, 0, sizeof table);
    table_len = SPADESWIRL_TABLE_BYTES(rows);
    table[1] = 1, table[3] = (uint8_t)rows, table[5] = SPADESWIRL_TABLE_HEADER_BYTES, table[7] = SPADESWIRL_ROW_BYTES;
    for (size_t i = 0; i < rows; i++) {
        uint8_t *row = table + SPADESWIRL_TABLE_BYTES(i);
        if (i % 3 == 0)
            row[0] = (uint8_t)(9 + below(24)), some(row + 8, row[0]), row[8] = (uint8_t)i;
        else
            memcpy(row, row - SPADESWIRL_ROW_BYTES, 40);
        row[1] = (uint8_t)(i % 3 ? SPADESWIRL_KEK : 1 + below(2)), row[3] = (uint8_t)(i % 3);
        some(row + 40, KEY);
    }
}

/* A row of that type, or null where the table has none. */
static const uint8_t *any_row(unsigned type)
{
    size_t rows = table[3], threes = (rows + 2 - type) / 3;
    return threes ? table + SPADESWIRL_TABLE_BYTES(3 * below(threes) + type) : NULL;
}

static void any_fields(unsigned format)
{
    for (int i = 0; i < CHOSEN - 2; i++)
        made.fields[i] = below((size_t)highest[i] + 1);
    made.fields[SPADESWIRL_FIELD_ALGORITHM_INDEX] = 1 + below(2);
    made.fields[SPADESWIRL_FIELD_KEY_FORMAT] = format;
}

/* Descriptors of rising types, none of them reserved; most are short, and few together pass the longest page. */
static void any_list(void)
{
    size_t often = 1 + below(64);
    made.list_len = 0, made.count = 0;
    for (unsigned type = 0; type < 256; type++) {
        size_t n = below(20) ? below(12) : below(400);
        if ((type >= 4 && type < 0xc0) || below(64) >= often || HEAD + sizeof made.part + made.list_len + 4 + n > MOST)
            continue;
        made.list[made.list_len] = (uint8_t)type, made.list[made.list_len + 1] = 0;
        made.list[made.list_len + 2] = (uint8_t)(n / 256), made.list[made.list_len + 3] = (uint8_t)n;
        some(made.list + made.list_len + 4, n);
        made.list_len += 4 + n, made.count++;
    }
}

/* A KEY part of format 04h: what is wrapped has so many bytes. */
static void wrapped_part(unsigned type, const uint8_t *identifier, size_t len, const uint8_t *wrapped, size_t wrapped_len)
{
    made.part[0] = 0, made.part[1] = (uint8_t)type, made.part[2] = 0, made.part[3] = (uint8_t)len;
    memcpy(made.part + 4, identifier, len);
    memcpy(made.part + 4 + len, wrapped, wrapped_len);
    made.part_len = 4 + len + wrapped_len;
}

static void clear(void)
{
    memset(room, FILL, sizeof room);
}

/* Whether all bytes of the room but the page's are as they were lent. */
static int untouched(size_t n)
{
    for (size_t i = 0; i < sizeof room; i++)
        if ((i < AROUND || i >= AROUND + n) && room[i] != FILL)
            return 0;
    return 1;
}

/*
 * The page written again from what is read of it: its fields, its KEY part, and the descriptors as they are shown, end to
 * end. What is wrapped and has not 40 bytes is not carried.
 */
static void again(const uint8_t *page, size_t len)
{
    static uint8_t list[MOST];
    uint64_t fields[SPADESWIRL_FIELDS], at[SPADESWIRL_PARTS], shown[2] = { 0, 0 }, place = 0, n = 7;
    size_t list_len = 0, shows = 0;
    int carried;
    uint8_t number;
    if (spadeswirl_page_read(page, len, fields) != SPADESWIRL_DONE || spadeswirl_page_parts(page, len, at) != SPADESWIRL_DONE
        || at[SPADESWIRL_PART_LIST] != HEAD + fields[SPADESWIRL_FIELD_KEY_LENGTH] || at[SPADESWIRL_PART_LIST] > len) {
        says(0, "not read, or the list begins elsewhere");
        return;
    }
    while (spadeswirl_list_step(page + at[SPADESWIRL_PART_LIST], len - at[SPADESWIRL_PART_LIST], 0, 1, place, shown) == SPADESWIRL_DONE && shown[1] > place) {
        memcpy(list + list_len, page + at[SPADESWIRL_PART_LIST] + shown[0], shown[1] - shown[0]);
        list_len += shown[1] - shown[0], place = shown[1], shows++;
    }
    says(shows == fields[SPADESWIRL_FIELD_DESCRIPTORS], "another count of descriptors is shown");
    carried = fields[SPADESWIRL_FIELD_KEY_FORMAT] != SPADESWIRL_FORMAT_WRAPPED || at[SPADESWIRL_PART_LIST] - at[SPADESWIRL_PART_WRAPPED] == WRAPPED;
    clear();
    number = spadeswirl_page_write(fields, page + HEAD, at[SPADESWIRL_PART_LIST] - HEAD, list, list_len, out, MOST, &n);
    says(number == (carried ? SPADESWIRL_DONE : SPADESWIRL_BAD_WRAPPED_LENGTH), "written again, it has another number");
    says(n == (carried ? len : 7) && untouched(carried ? len : 0), "written again, it has another length");
    says(!carried || memcmp(page, out, len) == 0, "written again, it has other bytes");
}

/* What was written is read with what went in, and its parts are where they were put. */
static void as_made(const uint8_t *page, size_t len)
{
    uint64_t fields[SPADESWIRL_FIELDS] = { 0 }, at[SPADESWIRL_PARTS] = { 0 };
    size_t identifier = made.part[2] * 256u + made.part[3];
    says(spadeswirl_page_read(page, len, fields) == SPADESWIRL_DONE, "not read");
    says(memcmp(fields, made.fields, sizeof made.fields) == 0, "the fields are others");
    says(fields[SPADESWIRL_FIELD_KEY_LENGTH] == made.part_len && fields[SPADESWIRL_FIELD_DESCRIPTORS] == made.count, "KEY LENGTH or the count is another");
    says(spadeswirl_page_parts(page, len, at) == SPADESWIRL_DONE && at[SPADESWIRL_PART_LIST] == HEAD + made.part_len, "the list begins elsewhere");
    says(memcmp(page + HEAD, made.part, made.part_len) == 0 && memcmp(page + HEAD + made.part_len, made.list, made.list_len) == 0, "the parts are others");
    if (made.fields[SPADESWIRL_FIELD_KEY_FORMAT] == SPADESWIRL_FORMAT_WRAPPED)
        says(at[SPADESWIRL_PART_KEK_TYPE] == made.part[1] && at[SPADESWIRL_PART_IDENTIFIER] == HEAD + 4 && at[SPADESWIRL_PART_WRAPPED] == HEAD + 4 + identifier,
             "the identifier is elsewhere");
    else
        says(at[SPADESWIRL_PART_KEK_TYPE] == 0 && at[SPADESWIRL_PART_IDENTIFIER] == 0 && at[SPADESWIRL_PART_WRAPPED] == 0, "it has an identifier");
}

/* A load gives this key, and the fields. */
static void loads(const uint8_t *page, size_t len, const uint8_t *key)
{
    uint64_t fields[SPADESWIRL_FIELDS] = { 0 };
    uint8_t loaded[KEY];
    says(spadeswirl_page_load(table, table_len, page, len, loaded, sizeof loaded, fields) == SPADESWIRL_DONE && memcmp(loaded, key, KEY) == 0
         && memcmp(fields, made.fields, sizeof made.fields) == 0, "the load gives another key");
}

/* One page of a format, there and back: plain keys with any table, references and wrapped keys by a row, where there is one. */
static void there_and_back(unsigned format)
{
    static uint8_t page[MOST], wrapped[MOST];
    uint8_t key[KEY];
    uint64_t n = 0;
    size_t len;
    unsigned type = format == SPADESWIRL_FORMAT_WRAPPED ? 1 + (unsigned)below(2) : SPADESWIRL_TYPE_DATA;
    const uint8_t *row;
    any_table(), any_fields(format), any_list(), some(key, KEY);
    row = any_row(type);
    if (!row && format != SPADESWIRL_FORMAT_KEY)
        return;
    if (format == SPADESWIRL_FORMAT_KEY) {
        memcpy(made.part, key, made.part_len = KEY);
    } else if (format == SPADESWIRL_FORMAT_REFERENCE) {
        memcpy(made.part, row + 8, made.part_len = row[0]);
        memcpy(key, row + 40, KEY);
        made.fields[SPADESWIRL_FIELD_ALGORITHM_INDEX] = row[1];
    } else {
        says(spadeswirl_wrap(row + 40, KEY, key, KEY, wrapped, WRAPPED) == SPADESWIRL_DONE, "not wrapped");
        wrapped_part(type, row + 8, row[0], wrapped, WRAPPED);
        len = HEAD + made.part_len + made.list_len;
        clear();
        says(spadeswirl_page_write_wrapped(table, table_len, made.fields, (uint16_t)type, row + 8, row[0], key, KEY, made.list, made.list_len, out, MOST, &n)
             == SPADESWIRL_DONE && n == len && untouched(len), "not wrapped and written");
        memcpy(wrapped, out, MOST);
        as_made(wrapped, len), loads(wrapped, len, key);
    }
    len = HEAD + made.part_len + made.list_len, n = 0;
    clear();
    says(spadeswirl_page_write(made.fields, made.part, made.part_len, made.list, made.list_len, out, MOST, &n) == SPADESWIRL_DONE && n == len && untouched(len),
         "not written");
    memcpy(page, out, MOST);
    says(format != SPADESWIRL_FORMAT_WRAPPED || memcmp(page, wrapped, len) == 0, "carried, the wrapped key makes another page");
    as_made(page, len), loads(page, len, key), again(page, len);
}

/* A page byte by byte, from fields that fit their bits; how long it is. */
static size_t build(uint8_t *page)
{
    const uint64_t *f = made.fields;
    size_t len = HEAD + made.part_len + made.list_len;
    memset(page, 0, HEAD);
    page[1] = 0x10, page[2] = (uint8_t)((len - 4) / 256), page[3] = (uint8_t)(len - 4), page[19] = (uint8_t)made.part_len;
    page[4] = (uint8_t)(f[0] << 5 | f[1]), page[5] = (uint8_t)(f[2] << 6 | f[3] << 4 | f[4] << 3 | f[5] << 2 | f[6] << 1 | f[7]);
    for (int i = 0; i < 4; i++)
        page[6 + i] = (uint8_t)f[8 + i];
    memcpy(page + HEAD, made.part, made.part_len);
    memcpy(page + HEAD + made.part_len, made.list, made.list_len);
    return len;
}

/* Any page, or one with a flaw or two in its fields, its KEY part or its list: it is written as it is read. */
static void built(unsigned format)
{
    static const uint64_t ends[CHOSEN] = { 8, 2, 4, 4, 2, 2, 2, 2, 256, 256, 256, 256 };
    static uint8_t page[MOST];
    static const size_t lens[] = { 8, 9, 31, 32, 33, 40 }, wrapped_lens[] = { 40, 40, 40, 39, 41, 24, 0 };
    uint64_t fields[SPADESWIRL_FIELDS], n = 7;
    size_t len;
    uint8_t key[WRAPPED + 1], number, wanted;
    any_fields(format), any_list(), some(key, sizeof key), some(made.part, sizeof made.part);
    made.part_len = format == SPADESWIRL_FORMAT_KEY ? (below(4) ? KEY : lens[below(6)]) : lens[below(6)];
    if (format == SPADESWIRL_FORMAT_WRAPPED)
        wrapped_part((unsigned)below(8) ? 1 + (unsigned)below(2) : (unsigned)below(4), made.part + 50, below(8) ? 1 + below(32) : below(40), key, wrapped_lens[below(7)]);
    for (size_t flaws = below(3); flaws > 0; flaws--) {
        size_t i = below(3 * CHOSEN);
        if (i < CHOSEN)
            made.fields[i] = below(2) ? below((size_t)ends[i]) : below(6) % ends[i];
        else if (i < 2 * CHOSEN && made.list_len > 0)
            made.list[below(made.list_len)] ^= (uint8_t)(1u << below(8));
        else if (made.part_len > 0)
            made.part[below(made.part_len) % 8] ^= (uint8_t)(1u << below(8));
    }
    len = build(page);
    wanted = spadeswirl_page_read(page, len, fields);
    clear();
    number = spadeswirl_page_write(made.fields, made.part, made.part_len, made.list, made.list_len, out, MOST, &n);
    says(wanted == SPADESWIRL_DONE ? number == SPADESWIRL_DONE || number == SPADESWIRL_BAD_WRAPPED_LENGTH : number == wanted, "writing does not say what reading says");
    says(number == SPADESWIRL_DONE ? n == len && memcmp(page, out, len) == 0 && untouched(len) : n == 7 && untouched(0), "it is written otherwise");
    if (wanted == SPADESWIRL_DONE)
        again(page, len);
}

int main(int argc, char **argv)
{
    unsigned long read_before;
    state = strtoull(argc > 1 ? argv[1] : "1", NULL, 10) * 2654435769u + 88172645463325252u;
    for (unsigned i = 0; i < PAGES; i++) {
        snprintf(page_name, sizeof page_name, "page %u of format %u", i, formats[i % 3]);
        there_and_back(formats[i % 3]);
    }
    read_before = passed + failed;
    for (unsigned i = 0; i < BUILT; i++) {
        snprintf(page_name, sizeof page_name, "built page %u of format %u", i, formats[i % 3]);
        built(formats[i % 3]);
    }
    /* each of them is two tests, and each that is read four more */
    snprintf(page_name, sizeof page_name, "%lu tests of built pages", passed + failed - read_before);
    says(passed + failed - read_before > 2 * BUILT + 4 * BUILT / 5, "too few of them are read");
    return report();
}
