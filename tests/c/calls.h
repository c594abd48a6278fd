/*
 * What the programs on lines of calls share: what a call is lent, and its answer. Each line is NAME CALL words: byte
 * strings in hex, "-" for an empty one, then numbers in decimal; the answer is NAME, the number, and what was lent as it
 * is after the call. An output is lent full of A5h, with as many bytes as the line's last word says; so is each number
 * that a call stores, and a session to be started. A line of a call with an output and a session ends with a session's
 * whole life: prefix, start, the spent byte that is set after the start, and rooms with commas between. The start is
 * answered as NAME.start, then each call by a line. A call that changes a string or fields it only reads, or a byte before
 * what it is lent, is answered by a line that says so; one that reads or writes past the end of anything ends the program.
 */
#ifndef CALLS_H
#define CALLS_H

#include <sys/mman.h>
#include "cases.h"
#include "spadeswirl.h"

/* At most so many strings and numbers are given, and at most so many words stand in a line. */
#define STRINGS 8
#define NUMBERS (SPADESWIRL_FIELDS_CHOSEN + 1)
#define WORDS 24

/* What a call shows, each or none: the output it was lent, the block it changed, the session. */
enum { NOTHING = 0, OUTPUT = 1, BLOCK = 2, SESSION = 4 };

/* The most that is lent in one piece, the bytes that guard it in front, and a size that every machine's pages divide. */
#define ROOM 0x200000
#define GUARD 16
#define PAGES 0x10000

/* A piece that is lent: it ends where the memory that may be touched ends. `copy` is what it held before the call. */
struct lent {
    uint8_t *end, *at, *copy;
    size_t len;
};

static struct lent strings[STRINGS], chosen, out, stored, life;
static uint64_t numbers[NUMBERS];
static int nulls;

static inline void give_up(const char *what, const char *about)
{
    fprintf(stderr, "%s: %.40s\n", what, about);
    exit(2);
}

static inline uint8_t *end_of_memory(void)
{
    uint8_t *at = mmap(NULL, ROOM + 2 * PAGES, PROT_READ | PROT_WRITE, MAP_PRIVATE | MAP_ANONYMOUS, -1, 0);
    if (at == MAP_FAILED)
        give_up("no memory", "mmap");
    at += ROOM + PAGES - (uintptr_t)at % PAGES;
    if (mprotect(at, PAGES, PROT_NONE) != 0)
        give_up("no memory", "mprotect");
    return at;
}

/* A piece of so many bytes, all of them A5h. */
static inline void lend(struct lent *piece, size_t len)
{
    if (len > ROOM - GUARD)
        give_up("too long", "lend");
    if (!piece->end)
        piece->end = end_of_memory(), piece->copy = malloc(ROOM);
    piece->at = piece->end - len;
    piece->len = len;
    memset(piece->at - GUARD, 0x5a, GUARD);
    memset(piece->at, 0xa5, len);
}

/* Says what no call may do: change a string that it only reads, or bytes before a piece. */
static inline void show_harm(const struct lent *piece, int reads, const char *what, int i)
{
    int front = 0;
    for (size_t k = 1; k <= GUARD; k++)
        front |= piece->at[-(ptrdiff_t)k] != 0x5a;
    if (front)
        printf(" and wrote before %s %d", what, i);
    if (reads && memcmp(piece->at, piece->copy, piece->len) != 0)
        printf(" and changed %s %d", what, i);
}

static inline void take(char *word, int i)
{
    struct lent *s = &strings[i];
    lend(s, strcmp(word, "-") == 0 ? 0 : strlen(word) / 2);
    if (unhex(word, s->at, s->len) < 0)
        give_up("no hex", word);
    memcpy(s->copy, s->at, s->len);
}

/* The fields that a page is written from are the first numbers of its line, lent as a piece that is only read. */
static inline void take_fields(void)
{
    lend(&chosen, sizeof(uint64_t) * SPADESWIRL_FIELDS_CHOSEN);
    memcpy(chosen.at, numbers, chosen.len);
    memcpy(chosen.copy, chosen.at, chosen.len);
}

static inline void show(const uint8_t *bytes, size_t n)
{
    fputs(n == 0 ? " -" : " ", stdout);
    for (size_t i = 0; i < n; i++) {
        putchar_unlocked("0123456789abcdef"[bytes[i] / 16]);
        putchar_unlocked("0123456789abcdef"[bytes[i] % 16]);
    }
}

/* A number in decimal, and what follows it. */
static inline uint64_t number_at(char *word, char **rest)
{
    uint64_t n = strtoull(word, rest, 10);
    if (*rest == word)
        give_up("no number", word);
    return n;
}

/* Something empty is a null pointer in every other line, and else points past what may be touched. */
#define LENT(piece) (piece).len || !nulls ? (piece).at : NULL, (piece).len
#define S(i) LENT(strings[i])
#define CHOSEN (const uint64_t *)chosen.at
#define OUT LENT(out)
#define STORED (uint64_t *)stored.at
#define LIFE (struct spadeswirl_session *)life.at
#define FLAG(i) (uint8_t)numbers[i]

/* How many strings and numbers a call takes, what it shows, and how many numbers it stores. */
struct call {
    const char *name;
    int strings, numbers;
    int shows, stores;
    uint8_t (*make)(void);
};

static inline void show_session(void)
{
    const struct spadeswirl_session *session = LIFE;
    show(session->prefix, 4);
    printf(" %016llx %02x", (unsigned long long)session->next, session->spent);
}

/* Makes the call once, with an output of so many bytes. */
static inline void answer(const char *name, const struct call *call, size_t room)
{
    lend(&out, room);
    lend(&stored, sizeof(uint64_t) * (size_t)call->stores);
    printf("%s %u", name, call->make());
    if (call->shows & OUTPUT)
        show(out.at, out.len);
    if (call->shows & BLOCK)
        show(strings[1].at, strings[1].len);
    if (call->shows & SESSION)
        show_session();
    for (int i = 0; i < call->stores; i++)
        printf(" %016llx", (unsigned long long)(STORED)[i]);
    for (int i = 0; i < call->strings; i++)
        show_harm(&strings[i], i != 1 || !(call->shows & BLOCK), "string", i);
    show_harm(&chosen, 1, "fields", 0);
    show_harm(&out, 0, "output", 0);
    show_harm(&stored, 0, "number", 0);
    show_harm(&life, 0, "session", 0);
    putchar('\n');
}

/* Makes a line's call, once for each of its rooms; `begin` starts a session's life. */
static inline void answers(const char *name, const struct call *call, char **words, void (*begin)(const char *))
{
    char *rest;
    for (int i = 0; i < call->strings; i++)
        take(words[i], i);
    for (int i = 0; i < call->numbers; i++)
        numbers[i] = number_at(words[call->strings + i], &rest);
    take_fields();
    lend(&life, sizeof(struct spadeswirl_session));
    if (call->shows & OUTPUT && call->shows & SESSION)
        begin(name);
    if (call->shows & OUTPUT) {
        rest = words[call->strings + call->numbers];
        do
            answer(name, call, number_at(rest, &rest));
        while (*rest++ == ',');
    } else {
        answer(name, call, 0);
    }
}

/* Answers the lines of standard input, each by one of so many calls; the program's status. */
static inline int answer_lines(const struct call *calls, size_t known, void (*begin)(const char *))
{
    char *line = NULL;
    size_t room = 0;
    ssize_t n;
    while ((n = getline(&line, &room, stdin)) > 0) {
        char *words[WORDS];
        int count = 0;
        const struct call *call = NULL;
        line[strcspn(line, "\n")] = '\0';
        for (char *w = strtok(line, " "); w && count < WORDS; w = strtok(NULL, " "))
            words[count++] = w;
        if (count == 0 || words[0][0] == '#')
            continue;
        for (size_t i = 0; i < known; i++)
            if (count > 1 && strcmp(words[1], calls[i].name) == 0)
                call = &calls[i];
        if (!call || count != 2 + call->strings + call->numbers + (call->shows & OUTPUT ? 1 : 0)) {
            fprintf(stderr, "not a call: %s\n", words[0]);
            return 2;
        }
        nulls = !nulls;
        answers(words[0], call, words + 2, begin);
    }
    free(line);
    return 0;
}

#endif
