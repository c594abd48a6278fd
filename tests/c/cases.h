/* What the C tests share: the count of what passed, and words in hex. */
#ifndef CASES_H
#define CASES_H

#include <stdio.h>
#include <stdlib.h>
#include <string.h>

static unsigned long passed, failed;

/* Counts one test, and says which failed. */
static inline void expect(int holds, const char *name, const char *what)
{
    if (holds) {
        passed++;
    } else {
        failed++;
        printf("FAILED %s: %s\n", name, what);
    }
}

/* The closing line, and the program's status. */
static inline int report(void)
{
    printf("%lu passed, %lu failed\n", passed, failed);
    return failed != 0;
}

static inline int digit(char c)
{
    return c >= '0' && c <= '9' ? c - '0' : c >= 'a' && c <= 'f' ? c - 'a' + 10 : -1;
}

/* The bytes of a word in hex, "-" for none: their count, or -1 for a word that is no hex or too long. */
static inline long unhex(const char *word, unsigned char *out, size_t room)
{
    size_t n = strlen(word) / 2;
    if (strcmp(word, "-") == 0)
        return 0;
    if (strlen(word) % 2 != 0 || n > room)
        return -1;
    for (size_t i = 0; i < n; i++) {
        int high = digit(word[2 * i]), low = digit(word[2 * i + 1]);
        if (high < 0 || low < 0)
            return -1;
        out[i] = (unsigned char)(16 * high + low);
    }
    return (long)n;
}

#endif
