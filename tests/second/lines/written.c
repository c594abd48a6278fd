/*
 * Lines of calls on pages that are written from a KEY part: document 01's page; fields at every boundary; every format, with
 * KEY parts of each; KEY parts, lists and pages at their boundaries, and past what KEY LENGTH and PAGE LENGTH can say; rooms;
 * every choice of flaws at once, with what the reader says of the page so built; and any pages, written, read, taken apart,
 * stepped along and loaded. After each line stands its answer as documents 01 and 02 have it: `#= NAME NUMBER`, the output
 * and the numbers stored, as they are after the call. Inputs come from a seed, which is printed.
 */
#include "writings.h"

/* Document 01's 66-byte page, from its fields and its KEY part. */
static void printed(void)
{
    static const char front[] = "0010003e400002020204" "0000000000000000" "002e000200024b31";
    static const long rooms[] = { -66, -65, -1, 0, 1 };
    struct bytes wanted = joined(from_hex(front), room_for(40)), name = { (unsigned char *)"K1", 2 }, zeros = room_for(40);
    struct writing w = { .field = { 2, 0, 0, 0, 0, 0, 0, 0, 2, 2, 2, WRAPPED_KEY }, .list = nothing };
    memset(zeros.at, 0, 40), memset(wanted.at + 26, 0, 40);
    w.part = wrapped_part(2, name, zeros);
    for (size_t i = 0; i < COUNT(rooms); i++) {
        struct bytes page;
        w.more = rooms[i];
        page = writes("printed", &w, rooms[i] < 0 ? 5 : 0);
        if (page.len && (page.len != wanted.len || memcmp(page.at, wanted.at, wanted.len) != 0))
            fail("not document 01's page", "printed");
    }
    reads_as("printed", wanted, &w, 0);
}

/* ---- fields and formats */

static unsigned tried;

/* A known format of another KEY part is not the field's own matter. */
static void with_value(unsigned field, unsigned long long value)
{
    struct writing w = any_writing(tried);
    if (field == FORMAT && permitted(field, value) && value != tried)
        return;
    w.field[field] = value;
    writes("field", &w, permitted(field, value) ? 0 : 3);
}

/* Each field at its boundaries; every choice of the bits of bytes 4 and 5, and of the modes and the index. */
static void fields(void)
{
    for (unsigned f = 0; f < COUNT(formats); f++)
        for (unsigned field = 0; field < CHOSEN; field++)
            tried = formats[f], each_value(field, with_value);
    for (unsigned set = 0; set < 3 * 512; set++) {
        struct writing w = any_writing(formats[set % 3]);
        w.field[0] = set / 512, w.field[1] = set / 256 % 2, w.field[2] = set / 64 % 4, w.field[3] = set / 16 % 4;
        for (unsigned i = 0; i < 4; i++)
            w.field[4 + i] = set >> (3 - i) & 1;
        writes("bits", &w, 0);
    }
    for (unsigned set = 0; set < 3 * 4 * 2 * 3; set++) {
        struct writing w = any_writing(formats[set % 3]);
        w.field[8] = set / 3 % 3, w.field[9] = set / 9 % 4, w.field[10] = 1 + set / 36;
        w.part = key_of(1 + set / 36, formats[set % 3]);
        writes("modes", &w, 0);
    }
}

/* KEY parts, and the number that each gives as one of each known format. Of any other format no part is looked at. */
static void every_format(void)
{
    static const unsigned long long wide[] = { 0x100, 0x101, 0x104, 0x200, 0x204, 0x1000, 0x10000, 0x10001, 0x10004, 0x100000000, 0x100000001,
        0x100000004, 0x8000000000000000, 0x8000000000000001, 0x8000000000000004, UINT64_MAX - 0xff, UINT64_MAX - 0xfb, UINT64_MAX };
    struct bytes vendor = { (unsigned char *)"VENDOR  1", 9 }, wrapped = some(40);
    const struct {
        struct bytes part;
        unsigned number[3];
    } parts[] = { { with(some(32), 2, 2, 0), { 0, 0, 2 } }, { with(some(31), 2, 2, 28), { 2, 0, 2 } }, { vendor, { 2, 0, 2 } },
        { cut(vendor, 8), { 2, 2, 2 } }, { nothing, { 2, 2, 2 } }, { with(some(33), 2, 2, 30), { 2, 4, 2 } },
        { wrapped_part(1, some(9), wrapped), { 2, 4, 0 } }, { wrapped_part(2, some(32), wrapped), { 2, 4, 0 } },
        { wrapped_part(1, some(3), cut(wrapped, 25)), { 0, 0, 8 } }, { wrapped_part(0, some(3), cut(wrapped, 25)), { 0, 0, 3 } },
        { wrapped_part(2, some(33), wrapped), { 2, 4, 4 } } };
    for (size_t p = 0; p < COUNT(parts); p++)
        for (size_t i = 0; i < 256 + COUNT(wide); i++) {
            unsigned long long format = i < 256 ? i : wide[i - 256];
            struct writing w = any_writing(PLAIN_KEY);
            w.field[FORMAT] = format, w.part = parts[p].part;
            writes("format", &w, permitted(FORMAT, format) ? parts[p].number[format == 4 ? 2 : format] : 3);
            if (i > 8 && i < 250)
                continue;
            w.list = broken_list((unsigned)i);
            writes("format-2", &w, 2);
        }
}

/* ---- KEY parts */

/* The number of a KEY part of so many bytes, where all else is taken: past 32 a reference is too long. */
static void plain_parts(void)
{
    static const size_t lens[] = { 0, 1, 7, 8, 9, 10, 20, 31, 32, 33, 34, 39, 40, 41, 48, 64, 255, 256, 256 + 32, 4075, 4076, 4077, 65515, 65516,
        65535, 65536, 65536 + 9, 65536 + 32, 65536 + 40, 131072 + 32 };
    for (size_t i = 0; i < COUNT(lens); i++)
        for (unsigned empty = 0; empty < 2; empty++) {
            size_t n = lens[i];
            struct writing key = any_writing(PLAIN_KEY), reference = any_writing(REFERENCE), unknown = any_writing(PLAIN_KEY);
            key.part = reference.part = unknown.part = some(n);
            unknown.field[FORMAT] = 2 + i % 2;
            if (empty)
                key.list = reference.list = unknown.list = nothing, key.more = reference.more = unknown.more = 0;
            writes("key", &key, n == 32 ? 0 : 2);
            writes("reference", &reference, n < 9 ? 2 : n > 32 ? 4 : 0);
            writes("unknown", &unknown, 3);
        }
}

/* Of format 04h: identifiers and wrapped keys of these lengths, together; no matter how long, a long part is 4. */
static void wrapped_parts(void)
{
    static const size_t names[] = { 0, 1, 2, 9, 31, 32, 33, 34, 255, 256, 256 + 9, 4032, 65491, 65535 };
    static const size_t wrapped[] = { 0, 1, 8, 24, 32, 39, 40, 41, 48, 80, 256 + 40, 4031, 65531, 65536 + 40 };
    for (size_t i = 0; i < COUNT(names); i++)
        for (size_t j = 0; j < COUNT(wrapped); j++) {
            struct writing w = any_writing(WRAPPED_KEY);
            int is_long = names[i] > 32 || 24 + names[i] + wrapped[j] + w.list.len > 4096;
            w.part = wrapped_part(w.type, some(names[i]), some(wrapped[j]));
            w.more = is_long && j % 2 ? -1000000 : MORE;
            writes("wrapped-part", &w, names[i] == 0 ? 2 : is_long ? 4 : wrapped[j] != 40 ? 8 : 0);
        }
}

/* A part of 53 bytes that says another length of its identifier, or is cut; and KEK types, which other formats have not. */
static void parts_of_04h(void)
{
    static const unsigned said[] = { 54, 255, 256, 256 + 9, 0x0900, 0x8009, 65491, 65535 };
    static const unsigned types[] = { 0, 1, 2, 3, 4, 0x80, 0xff, 0x100, 0x101, 0x102, 0x200, 0x201, 0x202, 0x8001, 0x8002, 0xffff };
    struct bytes part = wrapped_part(1, some(9), some(40));
    for (unsigned n = 0; n < part.len + COUNT(said); n++) {
        unsigned length = n < part.len ? n : said[n - part.len];
        struct writing w = any_writing(WRAPPED_KEY);
        w.part = with(part, 2, 2, length);
        writes("identifier-length", &w, length == 0 || length > 49 ? 2 : length > 32 ? 4 : length != 9 ? 8 : 0);
    }
    for (size_t n = 0; n <= part.len; n++) {
        struct writing w = any_writing(WRAPPED_KEY);
        w.part = cut(part, n);
        writes("part-cut", &w, n < 13 ? 2 : n < 53 ? 8 : 0);
    }
    for (size_t i = 0; i < COUNT(types); i++)
        for (unsigned f = 0; f < COUNT(formats); f++) {
            struct writing w = any_writing(formats[f]);
            w.part = with(formats[f] == PLAIN_KEY ? w.part : formats[f] == REFERENCE ? named[2].name : part, 0, 2, types[i]);
            writes("kek-type", &w, formats[f] == WRAPPED_KEY && types[i] != 1 && types[i] != 2 ? 3 : 0);
        }
}

/* ---- lists, lengths and rooms */

static void lists(void)
{
    struct bytes list = list_with(3);
    unsigned char unreserved[68];
    for (unsigned i = 0; i < 68; i++)
        unreserved[i] = (unsigned char)(i < 4 ? i : 0xc0 + i - 4);
    for (unsigned f = 0; f < COUNT(formats); f++) {
        struct writing w = any_writing(formats[f]);
        for (unsigned type = 0; type < 256; type++) {
            w.list = descriptor(type, some(type % 3));
            writes("type", &w, type >= 0x04 && type <= 0xbf ? 2 : 0);
            w.list = descriptor(0xc0, descriptor(type, nothing));
            writes("type-inside", &w, 0);
        }
        for (unsigned way = 0; way < BROKEN_LISTS; way++) {
            w.list = broken_list(way);
            writes("list-broken", &w, 2);
        }
        for (size_t n = 0; n <= list.len; n++) {
            w.list = cut(list, n);
            writes("list-cut", &w, n % 7 ? 2 : 0);
        }
        w.list = list_of(unreserved, COUNT(unreserved), f);
        writes("all-types", &w, 0);
        w.list = joined(w.list, descriptor(0xff, nothing));
        writes("all-types", &w, 2);
    }
}

/* Pages about the maximum, and about what PAGE LENGTH can say and its double; whole, and with a list that is broken at its end. */
static void lengths(void)
{
    static const size_t lens[] = { 4095, 4096, 4097, 4098, 65535, 65536, 65538, 65539, 65540, 65541, 65540 + 62, 65536 + 4096, 131072 + 4, 131072 + 66 };
    for (size_t i = 0; i < COUNT(lens); i++)
        for (unsigned f = 0; f < COUNT(formats); f++) {
            struct writing w = any_writing(formats[f]);
            w.list = list_as_long(lens[i] - PAGE_HEAD - w.part.len);
            writes("long", &w, lens[i] <= 4096 ? 0 : 4);
            w.more = -1;
            writes("long-5", &w, lens[i] <= 4096 ? 5 : 4);
            w.more = -1000000, w.list.len--;
            writes("long-2", &w, 2);
            w.list.len++, w.field[i % 8] += 4, w.more = 0;
            writes("long-3", &w, 3);
        }
    for (size_t total = 4095; total <= 4098; total++) {
        struct writing w = any_writing(WRAPPED_KEY);
        w.list = nothing, w.part = wrapped_part(1, some(32), some(total - PAGE_HEAD - 36));
        writes("long-8", &w, total > 4096 ? 4 : 8);
        w.more = -1;
        writes("long-8", &w, total > 4096 ? 4 : 5);
    }
}

static void rooms(void)
{
    static const long more[] = { -10000, -50, -33, -21, -20, -4, -2, -1, 0, 1, 2, 40, 4096 };
    for (unsigned f = 0; f < COUNT(formats); f++)
        for (unsigned descriptors = 0; descriptors < 4; descriptors++)
            for (size_t i = 0; i < COUNT(more); i++) {
                struct writing w = any_writing(formats[f]);
                w.list = list_with(descriptors), w.more = more[i];
                writes("room", &w, more[i] < 0 ? 5 : 0);
                if (formats[f] != WRAPPED_KEY)
                    continue;
                w.part = cut(w.part, w.part.len - 1 - i);
                writes("room-8", &w, more[i] < 0 ? 5 : 8);
            }
}

/* ---- flaws */

#define FLAWED_WAYS 8

/* A flaw of 3: a field that is not permitted or too wide, a format with a high bit more, or the KEK type of a wrapped key. */
static void not_permitted(struct writing *w, unsigned way)
{
    static const struct {
        unsigned field;
        unsigned long long value;
    } flaw[FLAWED_WAYS] = { { 0, 3 }, { 1, 2 }, { 2, 4 }, { 8, 3 }, { 9, 4 }, { ALGORITHM, 3 }, { FORMAT, 0 }, { 7, UINT64_MAX } };
    if (w->field[FORMAT] == WRAPPED_KEY && way == 5)
        w->part = with(w->part, 0, 2, 3);
    else if (way == 6)
        w->field[FORMAT] += 0x100;
    else
        w->field[flaw[way].field] = flaw[way].value;
}

/* Whether the page can be built for the reader: each field fits its bits, and PAGE LENGTH and KEY LENGTH say what there is. */
static int buildable(const struct writing *w)
{
    for (unsigned i = 0; i < CHOSEN; i++)
        if (w->field[i] >> limits[i].bits)
            return 0;
    return w->part.len <= 65535 && PAGE_HEAD + w->part.len + w->list.len - 4 <= 65535;
}

/*
 * The flaw of each number in a set, in one of eight ways: the lowest is given. The reader gives it too, where it is one of
 * its own. The flaw of 2 is in the KEY part, of a known format, or in the list; that of 4 is a long name or a long list.
 */
static void flawed(unsigned format, unsigned set, unsigned way)
{
    static const size_t wrapped[FLAWED_WAYS] = { 39, 24, 0, 32, 41, 48, 1, 80 };
    struct writing w = any_writing(format);
    int by_name = way % 3 == 1 && format != PLAIN_KEY, has[9];
    unsigned number = 1;
    for (unsigned i = 1; i < 9; i++)
        has[i] = set >> i & 1;
    if (format != PLAIN_KEY)
        w.part = some(has[4] && by_name ? 33 : 9 + way);
    if (format == WRAPPED_KEY)
        w.part = wrapped_part(w.type, w.part, some(has[8] ? wrapped[way] : 40));
    if (has[5])
        w.more = way % 2 ? -1 : -1000000;
    if (has[4] && !by_name)
        w.list = list_as_long((way ? 4097 : 65541) - PAGE_HEAD - w.part.len);
    if (has[3])
        not_permitted(&w, way);
    if (has[2] && way % 2 && w.field[FORMAT] == format)
        w.part = format == WRAPPED_KEY ? with(w.part, 2, 2, way == 1 ? 0 : w.part.len - 3) : cut(w.part, format == REFERENCE ? 8 : 31);
    else if (has[2])
        w.list = has[4] && !by_name ? cut(w.list, w.list.len - 1) : broken_list(way);
    while (number < 9 && !has[number])
        number++;
    writes("flaws", &w, number % 9);
    if (buildable(&w))
        reads_as("flaws", page_from(w.field, w.part, w.list), &w, number > 4 ? 0 : number);
}

/* Every choice of the numbers that this call can give; 8 is a wrapped key's alone. */
static void flaws(void)
{
    for (unsigned way = 0; way < FLAWED_WAYS; way++)
        for (unsigned f = 0; f < COUNT(formats); f++)
            for (unsigned set = 0; set < 1u << 9; set += 4)
                if (!(set >> 6 & 3) && (formats[f] == WRAPPED_KEY || !(set >> 8 & 1)))
                    flawed(formats[f], set, way);
}

/* ---- any pages */

/* Steps along a list from its beginning to its end: each shows the next descriptor as it was put there. */
static void steps(const char *about, struct bytes list)
{
    uint64_t at, end = 0;
    do {
        at = end;
        if (at < list.len)
            end += DESCRIPTOR_HEAD + get(list.at + at + 2, 2);
        write_numbered(about, "list_step", list, (unsigned long long[]){ 0, 1, at }, 3);
        answers(about, 0, nothing, NO_OUTPUT, (unsigned long long[]){ at, end }, 2);
    } while (at != end);
}

/* What is written is read, taken apart, stepped along and loaded: a key of the page's own with any accepted table. */
static void any_pages(void)
{
    struct bytes tables[] = { holders, keys, table_of(NULL, 0), table_of(named + 1, 2) };
    for (unsigned i = 0; i < 900; i++) {
        unsigned format = formats[i % 3];
        struct writing w = any_writing(format);
        struct bytes page;
        w.list = i % 50 == 7 ? list_as_long(3000 + byte()) : any_page_list(100, i % 8);
        if (format == WRAPPED_KEY)
            w.part = part_by(&w);
        w.more = byte() % 3;
        page = writes("any", &w, 0);
        reads_as("any", page, &w, 0);
        steps("any", w.list);
        loads_as("any", holders, page, &w, format == PLAIN_KEY ? w.part : format == REFERENCE ? named[w.field[ALGORITHM]].key : w.key);
        if (format == PLAIN_KEY)
            loads_as("any", tables[i / 3 % COUNT(tables)], page, &w, w.part);
    }
}

int main(int argc, char **argv)
{
    begin_pages(argc, argv);
    printed();
    fields();
    every_format();
    plain_parts();
    wrapped_parts();
    parts_of_04h();
    lists();
    lengths();
    rooms();
    flaws();
    any_pages();
    return 0;
}
