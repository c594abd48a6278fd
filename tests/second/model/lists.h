/* Descriptor lists and labels, read anew from document 01, "Descriptors and labels", and document 02, No. 7. */
#ifndef LISTS_H
#define LISTS_H

#include "../bytes.h"

#define DESCRIPTOR_HEAD 4
#define LABEL_MAX 4096

static inline int reserved(int label, unsigned type)
{
    return type >= (label ? 0x05 : 0x04) && type <= 0xbf;
}

/* The end of the descriptor that begins at a place of the list; 0 where the bytes there are no whole descriptor. */
static inline uint64_t descriptor_end(struct bytes list, uint64_t at)
{
    uint64_t left = list.len - at, whole;
    if (left < DESCRIPTOR_HEAD || list.at[at + 1] != 0)
        return 0;
    whole = DESCRIPTOR_HEAD + get(list.at + at + 2, 2);
    return whole <= left ? at + whole : 0;
}

/* A list opened as the caller says. */
static inline int list_check_as(struct bytes list, int label, int strict, unsigned long long *count)
{
    int last = -1;
    unsigned long long shown = 0;
    for (uint64_t at = 0, end; at < list.len; at = end) {
        unsigned type = list.at[at];
        end = descriptor_end(list, at);
        if (end == 0 || (int)type <= last || (strict && reserved(label, type)))
            return 2;
        last = (int)type;
        shown += !reserved(label, type);
    }
    *count = shown;
    return 0;
}

/* A list opened without a choice: a reserved type is 2, on a page and on a label. */
static inline int list_check(struct bytes list, int label, unsigned long long *count)
{
    return list_check_as(list, label, 1, count);
}

/* What is shown is a descriptor's start and end; the place twice where none is left. */
static inline int list_step(struct bytes list, int label, int strict, uint64_t place, unsigned long long *shown)
{
    if (place > list.len)
        return 2;
    for (uint64_t at = place, end; at < list.len; at = end) {
        end = descriptor_end(list, at);
        if (end == 0 || (strict && reserved(label, list.at[at])))
            return 2;
        if (!reserved(label, list.at[at])) {
            shown[0] = at, shown[1] = end;
            return 0;
        }
    }
    shown[0] = shown[1] = place;
    return 0;
}

/* Whether an accepted list has a descriptor of that type. */
static inline int present(struct bytes list, unsigned type)
{
    for (uint64_t at = 0; at < list.len; at = descriptor_end(list, at))
        if (list.at[at] == type)
            return 1;
    return 0;
}

/* Labels in the field have reserved types: their list is opened the old way. */
static inline int label_check(struct bytes label, unsigned long long *count)
{
    struct bytes list;
    unsigned long long shown;
    if (label.len < 2 || get(label.at, 2) != 0)
        return 2;
    list.at = label.at + 2, list.len = label.len - 2;
    if (list_check_as(list, 1, 0, &shown) != 0)
        return 2;
    if (!present(list, 0x00) || !present(list, 0x01) || !present(list, 0x03) || !present(list, 0x04))
        return 2;
    if (label.len > LABEL_MAX)
        return 4;
    *count = shown;
    return 0;
}

#endif
