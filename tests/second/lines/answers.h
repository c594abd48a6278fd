/* The answer that stands after a line, as documents 01 and 02 have it: `#= NAME NUMBER`, and all that was lent to be written. */
#ifndef ANSWERS_H
#define ANSWERS_H

#include "../bytes.h"
#include "calls.h"

/* The answer to the line before it: after 0 the output, where one is lent, begins with the result; all else is as lent. */
static inline void answers(const char *about, unsigned number, struct bytes result, size_t room, const unsigned long long *stored,
                           int count)
{
    printf("#= %s.%lu %u", about, lines, number);
    if (room != NO_OUTPUT) {
        struct bytes out = room_for(room);
        memset(out.at, 0xa5, room);
        if (number == 0)
            memcpy(out.at, result.at, result.len);
        put_hex(out.at, room);
        free(out.at);
    }
    for (int i = 0; i < count; i++)
        printf(" %016llx", number == 0 ? stored[i] : 0xa5a5a5a5a5a5a5a5);
    putchar('\n');
}

#endif
