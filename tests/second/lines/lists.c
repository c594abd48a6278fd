/*
 * Lines of calls on descriptor lists, opened without a choice and with each: every type; each rule broken once; reserved
 * types at both ends of their range; steps from every place and from places past the end; lengths whose sums of 16 bits
 * come round; lists of any descriptors, whole and damaged. Inputs come from a seed, which is printed.
 */
#include "descriptors.h"

static const unsigned char edges[] = { 0x00, 0x01, 0x03, 0x04, 0x05, 0xbe, 0xbf, 0xc0, 0xff };

static void types(void)
{
    unsigned char all[257];
    for (unsigned type = 0; type < 256; type++) {
        struct bytes list = descriptor(type, some(type % 3));
        list_checks("type", list);
        list_steps("type", list, 0);
        all[type] = (unsigned char)type;
    }
    all[256] = 0xff;
    for (size_t count = 255; count <= 257; count++)
        list_checks("all-types", list_of(all, count, 0));
    for (size_t place = 0; place <= 4 * 256; place += 4)
        list_steps("all-types", list_of(all, 256, 0), place);
    for (size_t i = 0; i < COUNT(edges); i++)
        for (size_t j = 0; j < COUNT(edges); j++) {
            unsigned char two[] = { edges[i], edges[j] };
            list_checks("pair", list_of(two, 2, 1));
            list_steps("pair", list_of(two, 2, 1), 0);
            list_steps("pair", list_of(two, 2, 1), 5);
        }
}

/* Any flag but 0 is set. */
static void flags(void)
{
    static const unsigned long long values[] = { 0, 1, 2, 127, 128, 254, 255 };
    for (size_t i = 0; i < COUNT(values); i++)
        for (unsigned type = 3; type <= 5; type++) {
            write_numbered("flags", "list_check", descriptor(type, nothing), &values[i], 1);
            for (size_t j = 0; j < COUNT(values); j++) {
                unsigned long long numbers[] = { values[i], values[j], 0 };
                write_numbered("flags", "list_check_as", descriptor(type, nothing), numbers, 2);
                write_numbered("flags", "list_step", descriptor(type, nothing), numbers, 3);
            }
        }
}

/* A list, and where its descriptors begin. */
static const unsigned char whole[] = { 0x00, 0, 0, 2, 7, 0, 0x02, 0, 0, 0, 0xc1, 0, 0, 3, 9, 9, 9 };
static const size_t heads[] = { 0, 6, 10 };

static void broken_once(const char *about, struct bytes list)
{
    list_checks(about, list);
    for (size_t i = 0; i < COUNT(heads); i++)
        list_steps(about, list, heads[i]);
}

static void rules(void)
{
    static const unsigned second[] = { 1, 2, 127, 128, 255 };
    struct bytes list = { (unsigned char *)whole, sizeof whole };
    broken_once("whole", list);
    for (size_t i = 0; i < COUNT(heads); i++) {
        for (size_t j = 0; j < COUNT(second); j++)
            broken_once("second-byte", changed(list, heads[i] + 1, second[j]));
        for (int by = -1; by <= 1; by += 2) {
            struct bytes other = joined(list, nothing);
            other.at[heads[i] + 3] = (unsigned char)(other.at[heads[i] + 3] + by);
            broken_once("length", other);
        }
        broken_once("length", changed(list, heads[i] + 2, 1));
        broken_once("length", changed(list, heads[i] + 2, 128));
        for (size_t j = 0; j < COUNT(edges); j++) {
            struct bytes other = joined(list, nothing);
            other.at[heads[i]] = edges[j];
            broken_once("other-type", other);
        }
    }
    for (size_t n = 0; n <= list.len; n++)
        broken_once("ends", cut(list, n));
    for (size_t n = 1; n <= 4; n++) {
        struct bytes head = descriptor(0xff, nothing);
        broken_once("ends-in-head", joined(list, cut(head, n)));
        list_checks("ends-in-head", cut(head, n));
        list_steps("ends-in-head", cut(head, n), 0);
    }
    list_checks("empty", nothing);
}

/* Steps from every place of a list and some past it; places that only their low bits put into the list. */
static void places(struct bytes list)
{
    static const uint64_t far[] = { 0x100, 0x10000, 0x100000000, 0x8000000000000000, 0xfffffffffffffffc, 0xfffffffffffffffd,
        0xfffffffffffffffe, 0xffffffffffffffff };
    for (uint64_t place = 0; place <= list.len + 5; place++)
        list_steps("place", list, place);
    for (size_t i = 0; i < COUNT(far); i++) {
        list_steps("far", list, far[i]);
        list_steps("far", list, far[i] + list.len);
    }
}

/* Reserved types passed over, with each of these after them. */
static void passed_over(void)
{
    static const unsigned char before[][3] = { { 0x05 }, { 0x04 }, { 0xbf }, { 0x05, 0x06 }, { 0x04, 0x80, 0xbf },
        { 0xbf, 0x05, 0x05 } };
    static const size_t counts[] = { 1, 1, 1, 2, 3, 3 };
    struct bytes whole = descriptor(0xc0, some(3)), after[] = { nothing, whole, cut(whole, 1), cut(whole, 2), cut(whole, 3),
        cut(whole, 6), changed(whole, 1, 1), changed(whole, 2, 1), changed(whole, 3, 4), joined(whole, cut(whole, 3)),
        joined(whole, whole), joined(descriptor(0x04, some(1)), whole), joined(descriptor(0x03, some(1)), whole) };
    for (size_t i = 0; i < COUNT(counts); i++)
        for (size_t j = 0; j < COUNT(after); j++)
            for (size_t each = 0; each < 3; each += 2) {
                struct bytes list = joined(list_of(before[i], counts[i], each), after[j]);
                list_checks("passed", list);
                for (size_t k = 0; k <= counts[i]; k++)
                    list_steps("passed", list, k * (4 + each));
            }
}

/* Lengths of contents with the end in its place and beside it; a length that the list has not. */
static void lengths(void)
{
    static const size_t each[] = { 0, 1, 2, 255, 256, 257, 258, 4091, 4092, 4093, 65531, 65532, 65533, 65534, 65535 };
    for (size_t i = 0; i < COUNT(each); i++) {
        struct bytes one = descriptor(0x02, likely(each[i])), list = joined(one, descriptor(0xc0, some(2)));
        if (each[i] < 1000 || each[i] == 65535) {
            list_checks("long", list);
            list_steps("long", list, 0);
        }
        list_steps("long", list, one.len);
        list_checks("long", cut(one, one.len - 1));
        list_steps("long", cut(one, one.len - 1), 0);
        list_checks("long", cut(list, one.len + 1));
        for (size_t n = 4; n <= 12; n++) {
            list_checks("short", cut(one, n < one.len ? n : one.len));
            list_steps("short", cut(one, n < one.len ? n : one.len), 0);
        }
    }
    /* more than a million bytes in all */
    unsigned char sixteen[16];
    for (unsigned i = 0; i < 16; i++)
        sixteen[i] = (unsigned char)(0xc0 + i);
    struct bytes widest = joined(list_of(sixteen, 16, 65535), descriptor(0xff, nothing));
    unsigned long long numbers[] = { 0, 1, 16 * 65539 };
    write_numbered("widest", "list_check", widest, numbers, 1);
    write_numbered("widest", "list_check_as", widest, numbers, 2);
    write_numbered("widest", "list_step", widest, numbers, 3);
    write_numbered("widest", "list_check", cut(widest, widest.len - 5), numbers, 1);
}

/* Every byte changed by one, by its top bit and to something else, and stepped at; every length; one byte more. */
static void damaged(struct bytes list)
{
    size_t head = 0;
    for (size_t i = 0; i < list.len; i++) {
        unsigned by[] = { 1, 128, byte() };
        if (i == head + 4 + get(list.at + head + 2, 2))
            head = i;
        for (size_t j = 0; j < COUNT(by); j++) {
            list_checks("damaged", changed(list, i, by[j]));
            list_steps("damaged", changed(list, i, by[j]), head);
        }
    }
    for (size_t n = 0; n <= list.len; n++) {
        list_checks("cut", cut(list, n));
        list_steps("cut", cut(list, n), n / 2);
    }
    list_checks("more", joined(list, some(1)));
    list_steps("more", joined(list, some(1)), list.len);
}

/* Any lists, walked along by where their descriptors begin; and bytes that are a list only by chance. */
static void any(void)
{
    for (unsigned i = 0; i < 100; i++) {
        struct bytes list = any_list(128, i % 10);
        list_checks("any", list);
        for (size_t at = 0; at < list.len; at += 4 + get(list.at + at + 2, 2))
            list_steps("any", list, at);
        list_steps("any", list, list.len);
    }
    for (unsigned i = 0; i < 500; i++) {
        struct bytes list = likely(byte() % 40);
        list_checks("junk", list);
        list_steps("junk", list, byte() % (list.len + 2));
    }
}

int main(int argc, char **argv)
{
    static const unsigned char mixed[] = { 0x00, 0x03, 0x04, 0x05, 0xbf, 0xc0 }, last[] = { 0x01, 0x06, 0xbf };
    start_from(argc > 1 ? argv[1] : "1");
    types();
    flags();
    rules();
    places(nothing);
    places(list_of(mixed, COUNT(mixed), 0));
    places(list_of(mixed, COUNT(mixed), 9));
    places(list_of(last, COUNT(last), 5));
    places(likely(60));
    passed_over();
    lengths();
    damaged(list_of(mixed, COUNT(mixed), 3));
    damaged(list_of(last, COUNT(last), 6));
    damaged(any_list(128, 6));
    any();
    return 0;
}
