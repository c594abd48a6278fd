/*
 * Lines of calls on labels: document 01's case 12; every choice of the types that a label needs and of some others; zero
 * bytes that are not zero; every byte of a label with every value; lengths about the maximum, whole and broken. Inputs
 * come from a seed, which is printed.
 */
#include "descriptors.h"

/* Every choice of these types, in rising order. */
static void choices(void)
{
    static const unsigned char all[] = { 0x00, 0x01, 0x02, 0x03, 0x04, 0x05, 0xbf, 0xc0, 0xff };
    for (unsigned set = 0; set < 1u << COUNT(all); set++) {
        unsigned char types[COUNT(all)];
        size_t count = 0;
        for (size_t i = 0; i < COUNT(all); i++)
            if (set >> i & 1)
                types[count++] = all[i];
        label_checks("label-types", label_of(list_of(types, count, set % 3)));
    }
}

/* The needed types in every order, each of them twice, and each reserved type after them. */
static void orders(void)
{
    for (unsigned order = 0; order < 256; order++) {
        unsigned char types[] = { needed[order & 3], needed[order >> 2 & 3], needed[order >> 4 & 3], needed[order >> 6] };
        label_checks("label-order", label_of(list_of(types, 4, 0)));
    }
    for (size_t i = 0; i < COUNT(needed); i++)
        for (size_t j = 0; j <= COUNT(needed); j++) {
            unsigned char types[COUNT(needed) + 1];
            memcpy(types, needed, j);
            types[j] = needed[i];
            memcpy(types + j + 1, needed + j, COUNT(needed) - j);
            label_checks("label-twice", label_of(list_of(types, COUNT(types), 1)));
        }
    for (unsigned type = 0; type < 256; type++)
        label_checks("label-one-more", label_of(joined(list_of(needed, COUNT(needed), 2), descriptor(type, some(1)))));
}

/* Every byte with every value, every length up to a descriptor more, and without its zero bytes or with four. */
static void every_byte(struct bytes label)
{
    struct bytes longer = joined(label, descriptor(0xc0, nothing)), later = { label.at + 2, label.len - 2 };
    for (size_t i = 0; i < label.len; i++)
        for (unsigned by = 0; by < 256; by++)
            label_checks("label-byte", changed(label, i, by));
    for (size_t n = 0; n <= longer.len; n++)
        label_checks("label-cut", cut(longer, n));
    label_checks("label-no-zeros", later);
    label_checks("label-more-zeros", label_of(label));
}

/* About the maximum: whole, then broken in each way; 2 comes before 4. */
static void lengths(void)
{
    static const size_t lens[] = { 255, 256, 4095, 4096, 4097, 4098, 4100, 8192, 65535, 65536, 65537, 65557 };
    static const unsigned types[] = { 0x05, 0xbf, 0xc0, 0xff };
    for (size_t i = 0; i < COUNT(lens); i++) {
        for (size_t j = 0; j < COUNT(types); j++)
            label_checks("label-length", label_as_long(lens[i], types[j]));
        struct bytes label = label_as_long(lens[i], 0xc0);
        label_checks("label-length-changed", changed(label, 0, 1));
        label_checks("label-length-changed", changed(label, 1, 128));
        for (size_t at = 2; at < 22; at += 4) {
            label_checks("label-length-changed", changed(label, at, 2));
            label_checks("label-length-changed", changed(label, at + 1, 1));
            label_checks("label-length-changed", changed(label, at + 3, 1));
        }
        label_checks("label-length-changed", cut(label, label.len - 1));
        label_checks("label-length-changed", joined(label, some(1)));
        label_checks("label-length-changed", joined(label, descriptor(0xc0, nothing)));
        label_checks("label-length-longer", joined(label, descriptor(0xc1, nothing)));
        label_checks("label-length-junk", some(lens[i]));
    }
    /* many descriptors in place of a long one */
    unsigned char all[256];
    for (unsigned type = 0; type < 256; type++)
        all[type] = (unsigned char)type;
    for (size_t each = 11; each <= 13; each++)
        label_checks("label-all-types", label_of(list_of(all, 256, each)));
}

static void any(void)
{
    for (unsigned i = 0; i < 1000; i++) {
        struct bytes label = label_of(any_list(230, i % 10));
        label_checks("label-any", label);
        if (i % 4 == 0)
            label_checks("label-any-changed", changed(label, byte() % label.len, 1u << byte() % 8));
    }
    for (unsigned i = 0; i < 500; i++)
        label_checks("label-junk", likely(byte() % 40));
}

int main(int argc, char **argv)
{
    start_from(argc > 1 ? argv[1] : "1");
    label_checks("label-case-12", label_of(nothing));
    label_checks("label-case-12", label_of(list_of(needed, COUNT(needed), 0)));
    choices();
    orders();
    every_byte(label_of(list_of(needed, COUNT(needed), 0)));
    every_byte(label_of(list_of(needed, COUNT(needed), 2)));
    lengths();
    any();
    return 0;
}
