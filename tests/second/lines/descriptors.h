/*
 * What the writers of lines on lists and labels share: descriptors, lists of them, and the four calls as lines. Nothing
 * is freed: these programs are short.
 */
#ifndef DESCRIPTORS_H
#define DESCRIPTORS_H

#include "../bytes.h"
#include "calls.h"

static inline struct bytes descriptor(unsigned type, struct bytes contents)
{
    struct bytes d = room_for(4 + contents.len);
    d.at[0] = (unsigned char)type, d.at[1] = 0;
    put(d.at + 2, 2, contents.len);
    memcpy(d.at + 4, contents.at, contents.len);
    return d;
}

/* So many bytes among which zeros and types are common, so that many places seem to begin a descriptor. */
static inline struct bytes likely(size_t n)
{
    static const unsigned char common[] = { 0, 0, 0, 0, 0, 0, 1, 2, 3, 4, 5, 0xbf, 0xc0 };
    struct bytes b = some(n);
    for (size_t i = 0; i < n; i++)
        if (b.at[i] % 16 < COUNT(common))
            b.at[i] = common[b.at[i] % 16];
    return b;
}

/* Descriptors of these types, in this order, each with so many bytes of contents. */
static inline struct bytes list_of(const unsigned char *types, size_t count, size_t each)
{
    struct bytes list = nothing;
    for (size_t i = 0; i < count; i++)
        list = joined(list, descriptor(types[i], likely(each)));
    return list;
}

/* Some rising types, each before `end` and each from `from` on with a chance of so many in 256; contents of fewer than 16 bytes. */
static inline struct bytes rising(unsigned end, unsigned low, unsigned from, unsigned high)
{
    struct bytes list = nothing;
    for (unsigned type = 0; type < 256; type++)
        if (byte() < (type < end ? low : type >= from ? high : 0))
            list = joined(list, descriptor(type, likely(byte() % 16)));
    return list;
}

/* Of all types, and of those alone that are not reserved on a page. */
static inline struct bytes any_list(unsigned low, unsigned high)
{
    return rising(0x05, low, 0x05, high);
}

static inline struct bytes any_page_list(unsigned low, unsigned high)
{
    return rising(0x04, low, 0xc0, high);
}

/* The types that a label needs. */
static const unsigned char needed[] = { 0x00, 0x01, 0x03, 0x04 };

static inline struct bytes label_of(struct bytes list)
{
    struct bytes zeros = { (unsigned char *)"\0", 2 };
    return joined(zeros, list);
}

/* A label of so many bytes, the last descriptor as long as it takes. */
static inline struct bytes label_as_long(size_t len, unsigned type)
{
    struct bytes label = label_of(list_of(needed, COUNT(needed), 0));
    return joined(label, descriptor(type, some(len - label.len - 4)));
}

/* For a page and for a label: without a choice, and told, strict and not. */
static inline void list_checks(const char *about, struct bytes list)
{
    for (unsigned label = 0; label < 2; label++) {
        unsigned long long old[] = { label, 0 }, strict[] = { label, 1 };
        write_numbered(about, "list_check", list, old, 1);
        write_numbered(about, "list_check_as", list, old, 2);
        write_numbered(about, "list_check_as", list, strict, 2);
    }
}

static inline void list_steps(const char *about, struct bytes list, uint64_t place)
{
    for (unsigned how = 0; how < 4; how++) {
        unsigned long long numbers[] = { how & 1, how >> 1, place };
        write_numbered(about, "list_step", list, numbers, 3);
    }
}

static inline void label_checks(const char *about, struct bytes label)
{
    write_call(about, "label_check", &label, 1, NO_OUTPUT);
}

#endif
