/* Random calls on descriptor lists and labels. */
#ifndef MADE_LISTS_H
#define MADE_LISTS_H

#include "draws.h"

/* Any list, few of them with reserved types; now and then one with a descriptor of the longest contents. */
static inline struct bytes any_descriptors(void)
{
    static const size_t longest[] = { 255, 256, 4092, 65531, 65534, 65535 };
    struct bytes list = any_list((unsigned)below(257), one_in(2) ? 0 : (unsigned)below(8));
    if (one_in(100))
        list = joined(any_list(128, 0), descriptor(0xff, some(ONE_OF(longest))));
    return list;
}

/* Any damage; one byte of a head that does not fit; a type that comes twice; or bytes that are a list only by chance. */
static inline struct bytes bad_list(struct bytes list)
{
    uint64_t at = 0;
    while (list.len > 0 && one_in(2) && descriptor_end(list, at) < list.len)
        at = descriptor_end(list, at);
    switch (list.len ? below(5) : 4) {
    case 0: return damaged(list);
    case 1: return changed(list, at + 1, 1u << below(8));
    case 2: return with(list, at + 2, 2, get(list.at + at + 2, 2) + (one_in(2) ? 1 : UINT64_MAX));
    case 3: return joined(list, cut(list, descriptor_end(list, 0)));
    }
    return likely(1 + below(40));
}

static inline unsigned long long any_flag(void)
{
    return one_in(8) ? byte() : below(2);
}

static inline void any_list_check(void)
{
    struct bytes list = any_descriptors();
    unsigned long long numbers[] = { any_flag(), any_flag() };
    int told = one_in(2);
    write_numbered(MADE, told ? "list_check_as" : "list_check", one_in(3) ? bad_list(list) : list, numbers, told ? 2 : 1);
}

/* From where a descriptor begins, from the end, from any place, or from one past the end, also by its high bits alone. */
static inline void any_list_step(void)
{
    struct bytes list = any_descriptors();
    uint64_t at = 0, places[4];
    while (at < list.len && !one_in(3))
        at = descriptor_end(list, at);
    places[0] = places[1] = at, places[2] = list.len, places[3] = below(list.len + 8);
    at = ONE_OF(places);
    if (one_in(16))
        at = one_in(2) ? UINT64_MAX - below(8) : at + ((uint64_t)1 << (8 + below(56)));
    unsigned long long numbers[] = { any_flag(), any_flag(), at };
    write_numbered(MADE, "list_step", one_in(4) ? bad_list(list) : list, numbers, 3);
}

/* The flaw of 2: a needed type that is not there, a bad list, a zero byte that is not zero, or hardly any bytes. */
static inline void any_label_check(void)
{
    unsigned flaws = FLAWS(2, 4), way = (unsigned)below(3);
    struct bytes list = any_list(HAS(flaws, 2) && way == 0 ? 200 : 256, one_in(2) ? 0 : (unsigned)below(8));
    struct bytes label = label_of(HAS(flaws, 2) && way == 1 ? bad_list(list) : list);
    if (HAS(flaws, 4) || one_in(20))
        label = label_as_long(HAS(flaws, 4) ? LABEL_MAX + 1 + (one_in(2) ? 0 : below(100)) : LABEL_MAX - below(2), 0xc0);
    if (HAS(flaws, 2) && (way == 2 || HAS(flaws, 4)))
        label = one_in(4) ? damaged(label) : one_in(4) ? cut(label, below(7)) : changed(label, below(2), 1u << below(8));
    write_made("label_check", &label, 1, NO_OUTPUT);
}

#endif
