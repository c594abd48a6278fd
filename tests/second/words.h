/*
 * Lines of words, read and written: one line a call, words with one space between, byte strings in hex, "-" for
 * an empty one. Written for the second program, which shares nothing with the unit or its tests.
 */
#ifndef WORDS_H
#define WORDS_H

#include <stdio.h>
#include <stdlib.h>
#include <string.h>

#define WORDS 24

struct bytes {
    unsigned char *at;
    size_t len;
};

/* Reads a line of any length into *line, which it may move; 0 at the end. */
static inline int next_line(FILE *in, char **line, size_t *room)
{
    ssize_t n = getline(line, room, in);
    if (n <= 0)
        return 0;
    if ((*line)[n - 1] == '\n')
        (*line)[n - 1] = '\0';
    return 1;
}

/* Cuts a line into words in place. */
static inline int cut_words(char *line, char **words)
{
    int n = 0;
    for (char *w = strtok(line, " "); w && n < WORDS; w = strtok(NULL, " "))
        words[n++] = w;
    return n;
}

static inline void fail(const char *what, const char *about)
{
    fprintf(stderr, "%s: %s\n", what, about);
    exit(2);
}

/* The value of a hexadecimal digit, or -1. */
static inline int digit_value(char c)
{
    if (c >= '0' && c <= '9')
        return c - '0';
    if (c >= 'a' && c <= 'f')
        return c - 'a' + 10;
    return c >= 'A' && c <= 'F' ? c - 'A' + 10 : -1;
}

/* A word in hex as bytes; there is always room for one more, so that `at` is never null. */
static inline struct bytes from_hex(const char *word)
{
    struct bytes b = { NULL, 0 };
    size_t n = strcmp(word, "-") == 0 ? 0 : strlen(word);
    if (n % 2)
        fail("odd number of digits", word);
    b.len = n / 2;
    b.at = malloc(b.len + 1);
    if (!b.at)
        fail("no memory", "from_hex");
    for (size_t i = 0; i < b.len; i++) {
        int high = digit_value(word[2 * i]), low = digit_value(word[2 * i + 1]);
        if (high < 0 || low < 0)
            fail("no hex", word);
        b.at[i] = (unsigned char)(16 * high + low);
    }
    return b;
}

/* A space and the digits, or `-` for none; many are written at once. */
static inline void put_hex(const unsigned char *at, size_t len)
{
    static const char digits[] = "0123456789abcdef";
    char some[4096];
    putchar(' ');
    if (len == 0)
        putchar('-');
    while (len > 0) {
        size_t count = len < sizeof some / 2 ? len : sizeof some / 2;
        for (size_t i = 0; i < count; i++)
            some[2 * i] = digits[at[i] / 16], some[2 * i + 1] = digits[at[i] % 16];
        fwrite(some, 1, 2 * count, stdout);
        at += count, len -= count;
    }
}

#endif
