/*
 * Lines of calls on key pages: document 01's page; pages of every format with 0 to 3 descriptors; descriptors of every
 * type; every byte changed, every length; KEY parts at their boundaries; keys wrapped by other methods; names that begin
 * alike; rooms; broken tables; lengths about the maximum and about PAGE LENGTH's; every choice of flaws at once; any
 * pages, whole and damaged. Inputs come from a seed, which is printed.
 */
#include "page_parts.h"

/* Document 01's 66-byte page, with no row, and with each kind of row: the one that answers does not unwrap forty zeros. */
static void printed(void)
{
    static const char front[] = "0010003e400002020204" "0000000000000000" "002e000200024b31";
    struct bytes page = joined(from_hex(front), room_for(40)), name = { (unsigned char *)"K1", 2 };
    memset(page.at + 26, 0, 40);
    reads("printed", page);
    takes_apart("printed", page);
    loads("printed", holders, page, 32);
    for (unsigned kind = 0; kind < COUNT(kinds); kind++) {
        struct row row = row_as(name, some(32), kind);
        loads("printed", table_of(&row, 1), page, 32);
        loads("printed", table_of(&row, 1), page, 31);
    }
}

static void whole(void)
{
    static const size_t outs[] = { 0, 1, 31, 32, 33, 40 };
    for (unsigned format = 0; format < 3; format++)
        for (unsigned index = 1; index <= 2; index++)
            for (unsigned descriptors = 0; descriptors <= 3; descriptors++) {
                struct bytes page = good(index, formats[format], descriptors);
                reads("whole", page);
                takes_apart("whole", page);
                for (size_t i = 0; i < COUNT(outs); i++)
                    loads("room", holders, page, outs[i]);
                loads("no-row", table_of(NULL, 0), page, 32);
            }
}

/* A descriptor of every type, alone and among others. */
static void types(void)
{
    for (unsigned format = 0; format < 3; format++)
        for (unsigned type = 0; type < 256; type++)
            for (unsigned descriptors = 0; descriptors <= 3; descriptors++)
                both("type", page_with(good(1 + type % 2, formats[format], descriptors), type, some(type % 3)));
}

/* Every value of the bytes before the KEY part; the rest changed by one and by the top bit; every length. */
static void every_byte(struct bytes page)
{
    struct bytes longer = joined(page, some(1));
    for (size_t i = 0; i < PAGE_HEAD; i++)
        for (unsigned by = 0; by < 256; by++)
            both("head", changed(page, i, by));
    for (size_t i = PAGE_HEAD; i < page.len; i++)
        for (unsigned by = 1; by <= 128; by += 127)
            both("byte", changed(page, i, by));
    for (size_t n = 0; n <= longer.len; n++) {
        both("cut", cut(longer, n));
        if (n >= 4)
            both("cut-fitted", fitted(cut(longer, n)));
    }
    for (unsigned bit = 0; bit < 64; bit++)
        both("reserved", changed(page, 10 + bit / 8, 1u << bit % 8));
}

/* PAGE LENGTH and KEY LENGTH beside their values, alone and together, and every KEY LENGTH that the page has room for. */
static void lengths(void)
{
    for (unsigned format = 0; format < 3; format++)
        for (unsigned descriptors = 0; descriptors <= 3; descriptors++) {
            struct bytes page = good(1, formats[format], descriptors);
            uint64_t total = get(page.at + 2, 2), key = get(page.at + 18, 2);
            for (uint64_t p = total - 1; p <= total + 1; p++)
                for (uint64_t k = key - 1; k <= key + 1; k++)
                    both("lengths", with(with(page, 2, 2, p), 18, 2, k));
            for (uint64_t k = 0; k <= page.len; k++)
                both("key-length", with(page, 18, 2, k));
            both("key-length", with(page, 18, 2, 0xffff));
            both("page-length", with(page, 2, 2, 0xffff));
            both("page-length", with(page, 2, 2, page.len));
        }
}

/* The permitted fields and those beside them, all together. */
static void fields(void)
{
    for (unsigned set = 0; set < 8 * 4 * 5 * 4; set++) {
        struct bytes page = good(1 + set % 2, formats[set % 3], set % 4);
        page.at[4] = (unsigned char)(set % 8 << 5 | (byte() & 1));
        page.at[6] = (unsigned char)(set / 8 % 4);
        page.at[7] = (unsigned char)(set / 32 % 5);
        page.at[8] = (unsigned char)(set / 160);
        both("fields", page);
    }
    for (unsigned scope = 0; scope < 256; scope++)
        both("scope", with(good(2, formats[scope % 3], 0), 4, 1, scope));
}

/* A format that is not known: 3 whatever the KEY part, 2 where the page or its list is broken. */
static void other_formats(void)
{
    static const unsigned unknown[] = { 0x02, 0x03, 0x05, 0xff };
    for (size_t i = 0; i < COUNT(unknown); i++)
        for (unsigned format = 0; format < 3; format++)
            for (unsigned descriptors = 0; descriptors <= 3; descriptors++) {
                struct bytes page = with(good(1, formats[format], descriptors), 9, 1, unknown[i]);
                both("unknown", page);
                both("unknown-empty", page_of(1, unknown[i], nothing, list_with(descriptors)));
                both("unknown-broken", fitted(joined(page, some(3))));
                both("unknown-broken", changed(page, 17, 1));
                both("unknown-field", with(page, 8, 1, 3));
            }
    for (unsigned i = 0; i < 3; i++)
        for (unsigned j = 0; j < 3; j++)
            both("another's-part", page_of(1, formats[i], key_of(1, formats[j]), list_with(i)));
}

/* References and identifiers of these lengths, of rows of each kind and of none. */
static void names(void)
{
    static const size_t lens[] = { 0, 1, 2, 7, 8, 9, 10, 31, 32, 33, 34, 40, 255, 256 };
    for (size_t i = 0; i < COUNT(lens); i++)
        for (unsigned kind = 0; kind <= COUNT(kinds); kind++) {
            struct row row = row_as(some(lens[i]), some(32), kind % COUNT(kinds));
            struct bytes table = kind < COUNT(kinds) && row.name.len && row.name.len <= 32 ? table_of(&row, 1) : holders;
            for (unsigned index = 1; index <= 2; index++) {
                struct bytes reference = page_of(index, REFERENCE, row.name, list_with(index));
                struct bytes part = wrapped_part(index, row.name, wrapped_by(&row));
                struct bytes page = page_of(index, WRAPPED_KEY, part, list_with(index));
                reads("reference", reference);
                loads("reference", table, reference, 32);
                reads("identifier", page);
                takes_apart("identifier", page);
                loads("identifier", table, page, 32);
            }
        }
}

/* KEY parts of format 04h: types; identifier lengths that run past the part; lengths of what is wrapped, and its bits. */
static void parts(void)
{
    static const unsigned types[] = { 0, 1, 2, 3, 4, 0x80, 0xff, 0x100, 0x101, 0x102, 0x200, 0x201, 0x202, 0x8001, 0xffff };
    static const size_t wraps[] = { 0, 1, 8, 16, 24, 31, 32, 39, 40, 41, 48, 80 };
    struct bytes name = keks[1].name, wrapped = wrapped_by(&keks[1]), other_key = wrapped_by(&keks[2]);
    struct bytes part = wrapped_part(1, name, wrapped), list = list_with(2);
    for (size_t i = 0; i < COUNT(types); i++) {
        both("kek-type", page_of(1, WRAPPED_KEY, wrapped_part(types[i], name, wrapped), list));
        both("kek-type", page_of(1, WRAPPED_KEY, wrapped_part(types[i], name, other_key), list));
    }
    for (uint64_t n = 0; n <= part.len; n++) {
        both("identifier-length", page_of(2, WRAPPED_KEY, with(part, 2, 2, n), list));
        both("part-cut", page_of(2, WRAPPED_KEY, cut(part, n), list));
    }
    both("identifier-length", page_of(2, WRAPPED_KEY, with(part, 2, 2, 0xffff), list));
    both("identifier-length", page_of(2, WRAPPED_KEY, with(part, 2, 2, 0x100 + name.len), list));
    for (size_t i = 0; i < COUNT(wraps); i++) {
        struct bytes cut_off = cut(joined(wrapped, some(40)), wraps[i]);
        both("wrapped-length", page_of(1, WRAPPED_KEY, wrapped_part(1, name, cut_off), list_with(i % 4)));
        both("wrapped-length", page_of(1, WRAPPED_KEY, wrapped_part(2, name, cut_off), list_with(i % 4)));
        both("wrapped-length", page_of(1, WRAPPED_KEY, wrapped_part(1, some(7), cut_off), list_with(i % 4)));
    }
    for (unsigned bit = 0; bit < 320; bit++) {
        struct bytes other = changed(wrapped, bit / 8, 1u << bit % 8);
        loads("wrapped", holders, page_of(1, WRAPPED_KEY, wrapped_part(1, name, other), nothing), 32);
    }
    for (unsigned bit = 0; bit < 256; bit += 5) {
        struct row row = kek_row(name, changed(keks[1].key, bit / 8, 1u << bit % 8), 1);
        loads("another-kek", table_of(&row, 1), page_of(1, WRAPPED_KEY, part, nothing), 32);
    }
}

/* A key wrapped under the KEK by the right method, and into 40 bytes by others: another start value, padding, a shorter AES. */
static void other_methods(void)
{
    static const unsigned char starts[][9] = { "\xa6\xa6\xa6\xa6\xa6\xa6\xa6\xa6", "\xa6\xa6\xa6\xa6\xa6\xa6\xa6\xa7",
        "\xa7\xa6\xa6\xa6\xa6\xa6\xa6\xa6", "\0\0\0\0\0\0\0\0" };
    struct { const EVP_CIPHER *cipher; const unsigned char *start; } methods[] = { { EVP_aes_256_wrap(), starts[0] },
        { EVP_aes_256_wrap(), starts[1] }, { EVP_aes_256_wrap(), starts[2] }, { EVP_aes_256_wrap(), starts[3] },
        { EVP_aes_256_wrap_pad(), NULL }, { EVP_aes_192_wrap(), NULL }, { EVP_aes_128_wrap(), NULL } };
    for (unsigned i = 0; i < 50; i++) {
        const struct row *r = &keks[1 + i % 2];
        struct bytes key = some(32), made = room_for(40);
        for (size_t m = 0; m < COUNT(methods); m++) {
            must(key_wrap_as(methods[m].cipher, 1, r->key.at, methods[m].start, key.at, made.at), "another wrap");
            loads("method", holders, page_of(1, WRAPPED_KEY, wrapped_part(r->type, r->name, made), nothing), 32);
        }
    }
}

/* Names that begin alike, after a vendor identification or by themselves; every choice of rows, of the right kind or any. */
static void tapes(int reference)
{
    static const char tails[4][7] = { "TAPE1", "TAPE10", "TAPE1\0", "TAPE" };
    static const size_t lens[] = { 5, 6, 6, 4 };
    struct bytes vendor = { (unsigned char *)"VENDOR  ", 8 };
    struct row all[4];
    for (unsigned i = 0; i < 4; i++) {
        struct bytes tail = { (unsigned char *)tails[i], lens[i] };
        all[i] = row_as(reference ? joined(vendor, tail) : tail, some(32), (reference ? 0 : 2) + i % 2);
    }
    for (unsigned have = 0; have < 64; have++) {
        struct row some_of[4];
        unsigned count = 0;
        for (unsigned i = 0; i < 4; i++)
            if (have >> i & 1) {
                const struct row *r = &all[have & 16 ? 3 - i : i];
                some_of[count++] = have & 32 ? row_as(r->name, r->key, byte() % COUNT(kinds)) : *r;
            }
        for (unsigned i = 0; i < 4; i++) {
            struct bytes key = reference ? all[i].name : wrapped_part(all[i].type, all[i].name, wrapped_by(&all[i]));
            struct bytes page = page_of(1 + i % 2, reference ? REFERENCE : WRAPPED_KEY, key, nothing);
            loads("tape", table_of(some_of, count), page, 32);
        }
    }
}

/* Tables that are broken, for every format and beside other flaws; and tables of 0 to 65 rows. */
static void tables(void)
{
    static const unsigned counts[] = { 0, 1, 2, 63, 64, 65 };
    struct row twice[] = { keks[1], named[2], keks[1] }, modes[] = { named[1], data_row(named[1].name, some(32), 2) }, all[66];
    struct bytes broken[] = { nothing, cut(holders, 7), cut(holders, holders.len - 1), joined(holders, some(1)), some(80),
        changed(holders, 1, 2), changed(holders, 3, 1), changed(holders, 5, 1), changed(holders, 7, 1), table_of(twice, 3),
        with(holders, 8, 1, 0), with(holders, 8, 1, 33), with(holders, 9, 1, 0), with(holders, 9, 1, 4),
        with(holders, 10, 2, 0), with(holders, 10, 2, 3), with(holders, 82, 2, 1), with(holders, 12, 1, 1),
        with(holders, 47, 1, 1), table_of(modes, 2) };
    for (size_t t = 0; t < COUNT(broken); t++)
        for (unsigned format = 0; format < 3; format++) {
            struct bytes page = good(2, formats[format], format);
            struct bytes pages[] = { page, nothing, changed(page, 0, 1), with(page, 8, 1, 0), with(page, 9, 1, 2),
                cut(page, 19), changed(page, page.len - 1, 1), page_with(page, 0x30, some(1)) };
            for (size_t i = 0; i < COUNT(pages); i++)
                loads("broken-table", broken[t], pages[i], 32);
            loads("broken-table", broken[t], page, 0);
        }
    for (unsigned i = 0; i < 66; i++) {
        all[i] = row_as(some(9 + i % 24), some(32), i % COUNT(kinds));
        all[i].name.at[0] = (unsigned char)i;
    }
    for (size_t c = 0; c < COUNT(counts); c++)
        for (unsigned i = 0; i < 66; i += i < 4 || i > 57 ? 1 : 9) {
            struct bytes part = wrapped_part(1 + i % 2, all[i].name, wrapped_by(&all[i]));
            loads("rows", table_of(all, counts[c]), page_of(1 + i % 2, REFERENCE, all[i].name, nothing), 32);
            loads("rows", table_of(all, counts[c]), page_of(1, WRAPPED_KEY, part, nothing), 32);
        }
}

/* About the maximum and about the longest that PAGE LENGTH can say: whole, and beside 2, 3 and 5. */
static void limits(void)
{
    static const size_t lens[] = { 4095, 4096, 4097, 65538, 65539, 65540, 65541 };
    for (size_t i = 0; i < COUNT(lens); i++)
        for (unsigned format = 0; format < 3; format++) {
            struct bytes page = page_as_long(1, formats[format], key_of(1, formats[format]), lens[i]);
            both("long", page);
            if (lens[i] > 5000 && format != i % 3)
                continue;
            reads("long", with(page, 2, 2, 0xffff));
            reads("long-2", changed(page, page.len - 1 - page.len / 2, 1));
            reads("long-2", changed(page, 4, 2));
            reads("long-2", fitted(cut(page, page.len - 1)));
            both("long-2", page_with(page, 0x30, nothing));
            reads("long-3", with(page, 9, 1, 5));
            reads("long-3", with(page, 6, 1, 3));
            loads("long-2", holders, changed(page, 10, 1), 32);
            loads("long-3", holders, with(page, 8, 1, 3), 32);
            loads("long-5", holders, page, 31);
        }
    /* a KEY part that is long, with KEY LENGTH up to all that a page can have */
    static const size_t key_lens[] = { 4075, 4076, 4077, 65518, 65519 };
    for (size_t i = 0; i < COUNT(key_lens); i++) {
        struct bytes key = some(key_lens[i]), wrapped = cut(key, key.len - 4 - keks[1].name.len);
        reads("long-key", page_of(1, 0x03, key, nothing));
        both("long-key", page_of(1, REFERENCE, key, nothing));
        both("long-key", page_of(1, WRAPPED_KEY, wrapped_part(1, keks[1].name, wrapped), nothing));
        both("long-key", page_of(1, WRAPPED_KEY, wrapped_part(1, cut(key, key.len - 44), some(40)), nothing));
    }
}

/* A row with that name and key, of the type so many after its own. */
static struct row of_another_type(const struct row *r, unsigned after)
{
    unsigned type = (r->type + after) % 3;
    return type == DATA_TYPE ? data_row(r->name, r->key, 2) : kek_row(r->name, r->key, type);
}

/* A table without the row: with its like of another name, or with one or both of the other types. */
static struct bytes without(const struct row *r, unsigned way)
{
    struct row others[] = { of_another_type(r, 1), of_another_type(r, 2) }, renamed = *r;
    renamed.name = some(r->name.len);
    return way == 0 ? table_of(&renamed, 1) : way == 3 ? table_of(others, 2) : table_of(&others[way - 1], 1);
}

/*
 * A page and a load with the flaw of each number in a set, in one of five ways, of which the last has a reserved
 * descriptor for 2: the lowest is to be given.
 */
static void flawed(unsigned format, unsigned set, unsigned way)
{
    static const size_t rooms[] = { 31, 0, 16, 30, 31 }, wraps[] = { 39, 24, 0, 32, 41 };
    int has[10], long_name;
    struct row row = format == REFERENCE ? named[2] : keks[1];
    struct bytes wrapped = wrapped_by(&row), name = row.name, key, list, page, table;
    for (unsigned number = 1; number < 10; number++)
        has[number] = set >> number & 1;
    if (has[9])
        wrapped = changed(wrapped, 9 * way, 1u << way);
    if (has[8])
        wrapped = cut(joined(wrapped, some(1)), wraps[way]);
    if (has[7])
        row.use = 1;
    table = has[6] ? without(&row, way % 4) : table_of(&row, 1);
    long_name = has[4] && way != 0 && way != 2 && format != PLAIN_KEY;
    if (long_name)
        name = joined(name, some(33 - name.len));
    key = format == PLAIN_KEY ? some(32) : format == REFERENCE ? name : wrapped_part(has[3] && way == 3 ? 3 : 1, name, wrapped);
    if (has[2] && way == 0)
        key = format == WRAPPED_KEY ? with(key, 2, 2, 0) : cut(key, format == REFERENCE ? 8 : 31);
    list = has[4] && !long_name ? descriptor(0xc0, some(4096)) : list_with(way % 4);
    page = page_of(2, format, key, list);
    if (has[2] && way == 4)
        page = page_with(page, 0x30, some(1));
    else if (has[2] && way != 0)
        page = way == 1 ? changed(page, 3, 1) : way == 2 ? changed(page, 4, 16) : fitted(joined(page, some(2)));
    if (has[3] && (way != 3 || format != WRAPPED_KEY))
        page = way % 4 == 0 ? with(page, 4, 1, 0x60) : with(page, 5 + way, 1, 4);
    if (has[1])
        table = changed(table, 10 + way, 1);
    reads("flaws", page);
    takes_apart("flaws", page);
    loads("flaws", table, page, has[5] ? rooms[way] : 32);
}

/* Every choice of the numbers that a load of the format can give; 7 is a reference's alone. */
static void flaws(void)
{
    static const unsigned highest[] = { 5, 7, 9 };
    for (unsigned way = 0; way < 5; way++)
        for (unsigned format = 0; format < 3; format++)
            for (unsigned set = 0; set < 2u << highest[format]; set += 2)
                if (formats[format] == REFERENCE || !(set >> 7 & 1))
                    flawed(formats[format], set, way);
}

/* Any pages, some with reserved descriptors, whole and with a change or two; and bytes that are a page only by chance. */
static void any(void)
{
    for (unsigned i = 0; i < 2000; i++) {
        unsigned index = 1 + byte() % 2, format = formats[byte() % 3];
        struct bytes list = i % 16 < 4 ? any_list(50, i % 4) : any_page_list(100, i % 8);
        struct bytes page = page_of(index, format, key_of(index, format), list);
        for (unsigned flaw = i % 4; flaw > 1; flaw--)
            page = changed(page, (byte() % 2 ? byte() : byte() % 26) % page.len, 1u << byte() % 8);
        both("any", i % 8 == 5 ? fitted(cut(page, 4 + byte() % (page.len - 4))) : page);
    }
    for (unsigned i = 0; i < 500; i++) {
        struct bytes page = likely(byte() % 80);
        both("junk", i % 2 || page.len < 4 ? page : fitted(with(page, 0, 2, 0x10)));
    }
}

int main(int argc, char **argv)
{
    begin_pages(argc, argv);
    printed();
    whole();
    types();
    for (unsigned format = 0; format < 3; format++)
        every_byte(good(1 + format % 2, formats[format], format + 1));
    lengths();
    fields();
    other_formats();
    names();
    parts();
    other_methods();
    tapes(0);
    tapes(1);
    tables();
    limits();
    flaws();
    any();
    return 0;
}
