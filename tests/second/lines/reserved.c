/*
 * Lines of calls on reserved descriptors, which are 04h to BFh on a page and 05h to BFh on a label: every type on lists, on
 * labels and on pages of each format, alone and among others; type 30h in place of 03h; and for every number that a load
 * can give, loads that give it, each again with a reserved descriptor in its page. After each line stands its answer as
 * documents 01 and 02 have it: `#= NAME NUMBER`, the output and the numbers stored, as they are after the call. Inputs
 * come from a seed, which is printed.
 */
#include "answers.h"
#include "page_parts.h"

/* How many more bytes are lent for a key than it takes. */
#define MORE 2

/* The types of a list, in its order. */
struct types {
    size_t count;
    unsigned char type[256];
};

/* Lists with and without a reserved type. Type 30h stands in place of 03h by itself, last, and among others. */
static const struct types mistaken[] = { { 0, { 0 } }, { 1, { 0x03 } }, { 1, { 0x30 } }, { 3, { 0x00, 0x03, 0xc0 } },
    { 3, { 0x00, 0x30, 0xc0 } }, { 4, { 0x00, 0x01, 0x02, 0x03 } }, { 4, { 0x00, 0x01, 0x02, 0x30 } }, { 2, { 0x03, 0x30 } },
    { 2, { 0x30, 0x03 } }, { 1, { 0x04 } }, { 2, { 0x03, 0x04 } }, { 2, { 0x04, 0x05 } }, { 2, { 0xbf, 0xc0 } },
    { 2, { 0xc0, 0xfe } }, { 3, { 0x04, 0x30, 0xbf } }, { 5, { 0x02, 0x04, 0x30, 0xbf, 0xfe } } };

/* A type that has a meaning there, or is a vendor's. */
static int unreserved(int label, unsigned type)
{
    return type <= (label ? 0x04 : 0x03) || type >= 0xc0;
}

static unsigned long long counted(int label, const struct types *t)
{
    unsigned long long count = 0;
    for (size_t i = 0; i < t->count; i++)
        count += (unsigned)unreserved(label, t->type[i]);
    return count;
}

static int rise(const struct types *t)
{
    for (size_t i = 1; i < t->count; i++)
        if (t->type[i] <= t->type[i - 1])
            return 0;
    return 1;
}

/* The types with one more, before the first that is not lower. */
static struct types plus(struct types t, unsigned type)
{
    size_t at = 0;
    while (at < t.count && t.type[at] < type)
        at++;
    memmove(t.type + at + 1, t.type + at, t.count - at);
    t.type[at] = (unsigned char)type, t.count++;
    return t;
}

/* All types of a range. */
static struct types from_to(unsigned first, unsigned last)
{
    struct types t = { 0, { 0 } };
    for (unsigned type = first; type <= last; type++)
        t.type[t.count++] = (unsigned char)type;
    return t;
}

/* A list opened without a choice is strict; else it is what its caller says. */
static void opened(const char *about, struct types t, size_t each)
{
    struct bytes list = list_of(t.type, t.count, each);
    for (int label = 0; label < 2; label++) {
        unsigned long long count = counted(label, &t), flags[] = { (unsigned)label, 0 };
        int has_reserved = count < t.count;
        write_numbered(about, "list_check", list, flags, 1);
        answers(about, !rise(&t) || has_reserved ? 2 : 0, nothing, NO_OUTPUT, &count, 1);
        for (; flags[1] < 2; flags[1]++) {
            write_numbered(about, "list_check_as", list, flags, 2);
            answers(about, !rise(&t) || (flags[1] && has_reserved) ? 2 : 0, nothing, NO_OUTPUT, &count, 1);
        }
    }
}

/* Steps from each descriptor and from the end: strict, a reserved type is 2; else the next that is none is shown. */
static void stepped(const char *about, struct types t, size_t each)
{
    struct bytes list = list_of(t.type, t.count, each);
    for (size_t at = 0; at <= t.count; at++)
        for (unsigned how = 0; how < 4; how++) {
            unsigned long long numbers[] = { how & 1, how >> 1, at * (4 + each) }, shown[2];
            size_t next = at;
            while (next < t.count && !unreserved(how & 1, t.type[next]))
                next++;
            shown[0] = next < t.count ? next * (4 + each) : numbers[2];
            shown[1] = next < t.count ? shown[0] + 4 + each : numbers[2];
            write_numbered(about, "list_step", list, numbers, 3);
            answers(about, numbers[1] && next > at ? 2 : 0, nothing, NO_OUTPUT, shown, 2);
        }
}

static void lists(void)
{
    struct types others = { 4, { 0x00, 0x02, 0xc1, 0xff } }, unreserved_of_all = from_to(0x00, 0x03);
    for (size_t i = 0; i < COUNT(mistaken); i++)
        for (size_t each = 0; each < 3; each++) {
            opened("30h-for-03h", mistaken[i], each);
            stepped("30h-for-03h", mistaken[i], each);
        }
    for (unsigned type = 0; type < 256; type++) {
        opened("type", from_to(type, type), type % 3);
        stepped("type", from_to(type, type), type % 3);
        opened("type-among", plus(others, type), type % 3);
        opened("range", from_to(0x00, type), 0);
        opened("range", from_to(type, 0xff), 0);
    }
    for (unsigned type = 0xc0; type < 256; type++)
        unreserved_of_all = plus(unreserved_of_all, type);
    opened("all-unreserved", unreserved_of_all, 1);
    opened("all-unreserved", plus(unreserved_of_all, 0x04), 1);
    opened("all-reserved", from_to(0x05, 0xbf), 1);
}

/* A label needs 00h, 01h, 03h and 04h. Its reserved types are passed over and not counted, as they were. */
static void labelled(const char *about, struct types t, size_t each)
{
    struct bytes label = label_of(list_of(t.type, t.count, each));
    unsigned long long count = counted(1, &t);
    size_t have = 0;
    for (size_t i = 0; i < COUNT(needed); i++)
        have += memchr(t.type, needed[i], t.count) != NULL;
    label_checks(about, label);
    answers(about, !rise(&t) || have < COUNT(needed) ? 2 : label.len > 4096 ? 4 : 0, nothing, NO_OUTPUT, &count, 1);
}

static void labels(void)
{
    struct types none = { 0, { 0 } }, four = { 4, { 0x00, 0x01, 0x03, 0x04 } };
    labelled("label-case-12", none, 0);
    labelled("label-case-12", four, 0);
    for (unsigned type = 0; type < 256; type++)
        for (size_t each = 0; each < 2; each++) {
            labelled("label-type", plus(four, type), each);
            labelled("label-type", plus(plus(plus(four, 0x02), 0xe0), type), each);
            labelled("label-type", from_to(0x00, type), each);
        }
    for (size_t i = 0; i < COUNT(needed); i++)
        for (unsigned type = 0x05; type <= 0xbf; type++) {
            struct types t = none;
            for (size_t j = 0; j < COUNT(needed); j++)
                t = j == i ? t : plus(t, needed[j]);
            labelled("label-lacks", plus(t, type), 1);
        }
    for (size_t each = 10; each <= 13; each++)
        labelled("label-all-types", from_to(0x00, 0xff), each);
}

/* A load: the page's fields and KEY part, and a long descriptor at the end where the page is to be; the key; and the number. */
struct load {
    unsigned long long field[PAGE_FIELDS];
    struct bytes table, part, key;
    size_t room;
    int is_long;
    unsigned number;
};

/* A reserved type is 2 whatever else is wrong, but for the table, which is 1. A read gives no number but 0, 2, 3 and 4. */
static void tried(const char *about, struct load l, struct types t, size_t each)
{
    struct bytes list = list_of(t.type, t.count, each), page;
    int broken = !rise(&t) || counted(0, &t) < t.count;
    l.field[12] = l.part.len, l.field[13] = counted(0, &t) + (unsigned)l.is_long;
    page = page_from(l.field, l.part, l.is_long ? joined(list, descriptor(0xff, some(4096))) : list);
    reads(about, page);
    answers(about, broken ? 2 : l.number == 3 || l.number == 4 ? l.number : 0, nothing, NO_OUTPUT, l.field, PAGE_FIELDS);
    loads(about, l.table, page, l.room);
    answers(about, l.number == 1 ? 1 : broken ? 2 : l.number, l.key, l.room, l.field, PAGE_FIELDS);
}

/* One that gives the key, with any permitted fields. */
static struct load good_load(unsigned format)
{
    static const unsigned ends[] = { 3, 2, 4, 4, 2, 2, 2, 2, 3, 4 };
    struct load l = { { 0 }, holders, nothing, some(32), 32 + MORE, 0, 0 };
    unsigned index = 1 + byte() % 2;
    struct bytes wrapped = room_for(40);
    for (size_t i = 0; i < COUNT(ends); i++)
        l.field[i] = byte() % ends[i];
    l.field[10] = index, l.field[11] = format;
    must(key_wrap(1, keks[index].key.at, l.key.at, wrapped.at), "wrap");
    if (format == REFERENCE)
        l.key = named[index].key;
    l.part = format == REFERENCE ? named[index].name : format == PLAIN_KEY ? l.key : wrapped_part(index, keks[index].name, wrapped);
    return l;
}

static void with_each_list(struct load l)
{
    for (size_t i = 0; i < COUNT(mistaken); i++)
        tried("30h-for-03h", l, mistaken[i], i % 3);
}

/* A load that gives the key but for one thing, with each list: a field, the KEY part, the table or the room. */
static void with_field(unsigned format, size_t at, unsigned value)
{
    struct load l = good_load(format);
    l.field[at] = value, l.number = 3;
    with_each_list(l);
}

static void with_part(unsigned number, unsigned format, struct bytes part)
{
    struct load l = good_load(format);
    l.part = part, l.number = number;
    with_each_list(l);
}

static void with_table(unsigned number, unsigned format, struct bytes table)
{
    struct load l = good_load(format);
    l.table = table, l.number = number;
    with_each_list(l);
}

static void with_room(unsigned format, size_t room)
{
    struct load l = good_load(format);
    l.room = room, l.number = 5;
    with_each_list(l);
}

/* Loads that give each number where the list has no reserved type. */
static void numbers(void)
{
    struct row renamed[] = { data_row(some(20), some(32), 1), kek_row(some(9), some(32), 1) };
    struct row exchanged[] = { data_row(named[1].name, some(32), 2), data_row(named[2].name, some(32), 1) };
    struct row twice[] = { keks[1], named[1], named[2], keks[2], keks[1] };
    struct bytes long_name = joined(named[2].name, some(13)), wrapped = wrapped_by(&keks[1]);
    for (unsigned f = 0; f < 3; f++) {
        struct load l = good_load(formats[f]);
        with_each_list(l);
        l.is_long = 1, l.number = 4;
        with_each_list(l);
        with_table(1, formats[f], cut(holders, holders.len - 1));
        with_table(1, formats[f], table_of(twice, 5));
        with_field(formats[f], 0, 3);
        with_field(formats[f], 8, 3);
        with_field(formats[f], 9, 4);
        with_field(formats[f], 10, 0);
        with_field(formats[f], 10, 3);
        with_field(formats[f], 11, 2);
        with_field(formats[f], 11, 0x30);
        with_room(formats[f], 31);
        with_room(formats[f], 0);
        if (formats[f] == PLAIN_KEY)
            continue;
        with_table(6, formats[f], table_of(NULL, 0));
        with_table(6, formats[f], table_of(renamed, 2));
    }
    with_part(4, REFERENCE, long_name);
    with_part(4, WRAPPED_KEY, wrapped_part(1, long_name, wrapped));
    with_part(3, WRAPPED_KEY, wrapped_part(0, keks[1].name, wrapped));
    with_part(3, WRAPPED_KEY, wrapped_part(3, keks[1].name, wrapped));
    with_table(7, REFERENCE, table_of(exchanged, 2));
    with_part(8, WRAPPED_KEY, wrapped_part(1, keks[1].name, cut(wrapped, 39)));
    with_part(8, WRAPPED_KEY, wrapped_part(2, keks[2].name, joined(wrapped, some(1))));
    with_part(9, WRAPPED_KEY, wrapped_part(1, keks[1].name, changed(wrapped, 39, 1)));
    with_part(9, WRAPPED_KEY, wrapped_part(2, keks[2].name, wrapped));
}

/* A descriptor of every type, alone and among others; and inside another, where it is contents and none of the list's. */
static void pages(void)
{
    struct types others = { 4, { 0x00, 0x02, 0xc1, 0xff } };
    for (unsigned f = 0; f < 3; f++) {
        struct load l = good_load(formats[f]);
        for (unsigned type = 0; type < 256; type++) {
            struct bytes inside = descriptor(0xc0, descriptor(type, nothing)), page = page_from(l.field, l.part, inside);
            tried("page-type", l, from_to(type, type), type % 3);
            tried("page-type", l, plus(others, type), type % 3);
            l.field[12] = l.part.len, l.field[13] = 1;
            reads("page-inside", page);
            answers("page-inside", 0, nothing, NO_OUTPUT, l.field, PAGE_FIELDS);
            loads("page-inside", l.table, page, l.room);
            answers("page-inside", 0, l.key, l.room, l.field, PAGE_FIELDS);
        }
        tried("page-all", l, from_to(0x00, 0xff), 0);
        tried("page-all", l, from_to(0x00, 0x03), 1);
        tried("page-all", l, from_to(0xc0, 0xff), 1);
    }
}

int main(int argc, char **argv)
{
    begin_pages(argc, argv);
    lists();
    labels();
    numbers();
    pages();
    return 0;
}
