/* Sealing with the next IV of a session, read anew from document 01: sealing's numbers first, since they are lower, then 10. */
#ifndef NEXT_H
#define NEXT_H

#include "records.h"
#include "sessions.h"

/* Table, name, associated data, plaintext. The session advances and the output is written where the number is 0, and only then. */
static inline int seal_next(struct session *s, struct bytes *w, struct bytes out)
{
    unsigned char iv[IV_LENGTH];
    struct bytes with[] = { w[0], w[1], { iv, IV_LENGTH }, w[2], w[3] }, room = joined(out, nothing);
    int number;
    memcpy(iv, s->prefix, 4);
    put(iv + 4, 8, s->next);
    number = seal(with, room);
    if (number == 0 && s->spent)
        number = 10;
    if (number == 0) {
        memcpy(out.at, room.at, out.len);
        session_issue(s, with[2]);
    }
    free(room.at);
    return number;
}

#endif
