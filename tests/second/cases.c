/*
 * Which lines of NIST's cases are well formed (tests/vectors/README.md): prints "= " and the line for one that is,
 * "refused N" for one that is not, N the line's number from 1, and nothing for an empty line and one that begins
 * with '#'. What a well-formed line's call gives is left to the second program. It shares no code with the unit.
 */
#include <stdio.h>
#include <string.h>

#define INPUT_MAX 1048576
#define STRING_MAX 4368
#define LINE_WORDS 8

/* A word's place in the line; a line may hold any byte. */
struct word {
    const char *at;
    size_t len;
};

/* A call, how many strings it takes, and whether a room follows them. */
static const struct call {
    const char *name;
    int strings, room;
} calls[] = {
    { "aes256_encrypt", 2, 0 }, { "aes256_decrypt", 2, 0 }, { "aes256_encrypt_1000", 2, 0 },
    { "aes256_decrypt_1000", 2, 0 }, { "ccm_encrypt", 4, 1 }, { "gcm_encrypt", 4, 1 }, { "ccm_decrypt", 5, 1 },
    { "gcm_decrypt", 5, 1 }, { "wrap", 2, 1 }, { "unwrap", 2, 1 },
};

/* How many words with one space between each two; 0 where one is empty or there are more than any line has. */
static int cut_line(const char *line, size_t len, struct word *words)
{
    int n = 0;
    const char *end = line + len;
    for (const char *at = line;; at++) {
        const char *stop = memchr(at, ' ', (size_t)(end - at));
        if (!stop)
            stop = end;
        if (stop == at || n == LINE_WORDS)
            return 0;
        words[n].at = at;
        words[n++].len = (size_t)(stop - at);
        if (stop == end)
            return n;
        at = stop;
    }
}

static int only(struct word w, const char *allowed)
{
    for (size_t i = 0; i < w.len; i++)
        if (!memchr(allowed, w.at[i], strlen(allowed)))
            return 0;
    return 1;
}

static int is_string(struct word w)
{
    if (w.len == 1 && w.at[0] == '-')
        return 1;
    return w.len % 2 == 0 && w.len / 2 <= STRING_MAX && only(w, "0123456789abcdefABCDEF");
}

static int is_room(struct word w)
{
    unsigned long n = 0;
    if (!only(w, "0123456789"))
        return 0;
    for (size_t i = 0; i < w.len && n <= STRING_MAX; i++)
        n = 10 * n + (unsigned long)(w.at[i] - '0');
    return n <= STRING_MAX;
}

static int well_formed(const char *line, size_t len)
{
    struct word w[LINE_WORDS];
    const struct call *call = NULL;
    int n = cut_line(line, len, w);
    for (size_t i = 0; n > 1 && i < sizeof calls / sizeof calls[0]; i++)
        if (w[1].len == strlen(calls[i].name) && memcmp(w[1].at, calls[i].name, w[1].len) == 0)
            call = &calls[i];
    if (!call || n != 2 + call->strings + call->room)
        return 0;
    for (int i = 0; i < call->strings; i++)
        if (!is_string(w[2 + i]))
            return 0;
    return !call->room || is_room(w[n - 1]);
}

int main(void)
{
    static char input[INPUT_MAX + 1];
    size_t len = fread(input, 1, sizeof input, stdin);
    unsigned long number = 1;
    if (len > INPUT_MAX) {
        printf("refused: more than %d bytes\n", INPUT_MAX);
        return 0;
    }
    for (size_t at = 0; at < len; number++) {
        const char *line = input + at, *end = memchr(line, '\n', len - at);
        size_t size = end ? (size_t)(end - line) : len - at;
        if (size > 0 && line[0] != '#' && well_formed(line, size)) {
            fputs("= ", stdout);
            fwrite(line, 1, size, stdout);
            putchar('\n');
        } else if (size > 0 && line[0] != '#') {
            printf("refused %lu\n", number);
        }
        at += size + 1;
    }
    return 0;
}
