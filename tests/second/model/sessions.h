/* The IV session, read anew from document 01, "IV session". */
#ifndef SESSIONS_H
#define SESSIONS_H

#include "../bytes.h"

#define IV_LENGTH 12

/* Any spent byte but 0 is spent. */
struct session {
    unsigned char prefix[4];
    uint64_t next;
    unsigned char spent;
};

static inline int session_start(struct session *s, uint64_t prefix, uint64_t start)
{
    put(s->prefix, 4, prefix);
    s->next = start;
    s->spent = 0;
    return 0;
}

/* The prefix, then the next number. After that of 2^64 - 1 the number stays and the session is spent. */
static inline int session_issue(struct session *s, struct bytes iv)
{
    if (iv.len < IV_LENGTH)
        return 5;
    if (s->spent)
        return 10;
    memcpy(iv.at, s->prefix, 4);
    put(iv.at + 4, 8, s->next);
    if (s->next == UINT64_MAX)
        s->spent = 1;
    else
        s->next++;
    return 0;
}

#endif
