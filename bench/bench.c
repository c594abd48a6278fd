/*
 * Speed of sealing and opening records, of unwrapping a key, of testing a key table and of loading a key page, beside the
 * libraries that have such a call, in one run: MB/s of processor time, for what is no record microseconds of it, by the best
 * of many bundles of calls, and the unit's speed over the best peer's. All are checked to give the same bytes first. Then the
 * unit's cost a byte at 1 MiB over that at 64 KiB, and the stack it used.
 *
 * bench TURNS       the table, with so many turns of each library at each line
 * bench lines WORDS [TURNS]
 *                   its lines alone that have all these words (one argument): words of the heading above, of the line's
 *                   name, or its bytes, as in 'CCM open 1048576', '64', '64 rows', 'microseconds'
 * bench once GCM|CCM seal|open SIZE TIMES
 * bench once unwrap|check TIMES
 *                   the unit alone, so many calls (check: of 64 rows), for counting its instructions: what one takes is the
 *                   difference of two counts
 *
 * bench/run takes the first two as well, and sets what keeps OpenSSL and nettle from AES instructions.
 */
#include <alloca.h>
#include <stdio.h>
#include <stdlib.h>
#include <string.h>
#include <time.h>
#include "calls.h"
#include "spadeswirl.h"

/* The bundles of calls that a library made, each by the seconds of a call. */
struct bundles {
    size_t n;
    double took[4096];
};

struct line {
    const char *heading, *name;
    struct call call;
    struct bundles by[PEERS];
};

static struct line lines[32];
static size_t count;

static const char *const of_records[][2] = { { "GCM seal", "GCM open" }, { "CCM seal", "CCM open" } };
static const char by_2[] = "mode way     bytes", by_64[] = "by 64 rows   bytes", microseconds[] = "microseconds bytes";

static void add(const char *heading, const char *name, int way, int mode, size_t n, size_t rows)
{
    struct line *l = &lines[count++];
    l->heading = heading, l->name = name;
    l->call = (struct call){ way, mode, n, rows };
}

/* The peers have no table: beside them the lines by 64 rows show what the rows cost. */
static void add_all(void)
{
    static const size_t sizes[] = { 16, 64, 1024, 65536, MOST };
    for (int mode = GCM; mode <= CCM; mode++)
        for (int way = SEAL; way <= OPEN; way++)
            for (size_t i = 0; i < sizeof sizes / sizeof sizes[0]; i++)
                add(by_2, of_records[mode][way], way, mode, sizes[i], 2);
    for (int mode = GCM; mode <= CCM; mode++)
        for (int way = SEAL; way <= OPEN; way++)
            add(by_64, of_records[mode][way], way, mode, 64, 64);
    add(microseconds, "unwrap", UNWRAP, 0, SPADESWIRL_KEY_BYTES, 0);
    add(microseconds, "check 2 rows", CHECK, 0, SPADESWIRL_TABLE_BYTES(2), 2);
    add(microseconds, "check 64 rows", CHECK, 0, SPADESWIRL_TABLE_BYTES(64), 64);
    add(microseconds, "load 00h", LOAD, 0, PLAIN_PAGE, 0);
    add(microseconds, "load 04h", LOAD, 0, WRAPPED_PAGE, 0);
}

/* Whether each of the words is one of the line's. */
static int asked(const struct line *l, const char *words)
{
    char all[80], word[80];
    snprintf(all, sizeof all, " %s %s %zu ", l->heading, l->name, l->call.n);
    for (words += strspn(words, " "); *words; words += strspn(words, " ")) {
        int letters = (int)strcspn(words, " ");
        snprintf(word, sizeof word, " %.*s ", letters, words);
        if (!strstr(all, word))
            return 0;
        words += letters;
    }
    return 1;
}

static void keep(const char *words)
{
    size_t kept = 0;
    for (size_t k = 0; k < count; k++)
        if (asked(&lines[k], words))
            lines[kept++] = lines[k];
    count = kept;
}

static double seconds(void)
{
    struct timespec t;
    clock_gettime(CLOCK_PROCESS_CPUTIME_ID, &t);
    return (double)t.tv_sec + 1e-9 * (double)t.tv_nsec;
}

/* The seconds of a call, by so many of them. */
static double timed(const struct call *c, size_t i, size_t times)
{
    double from = seconds();
    for (size_t k = 0; k < times; k++)
        call(c, i);
    return (seconds() - from) / (double)times;
}

/* A library's turn: 30 ms of calls, in bundles of 1 ms or, where a call is longer, of one call. With 2 and 4 ms two runs agreed a little less. */
static void turn(const struct call *c, size_t i, struct bundles *by)
{
    double end = seconds() + 0.03;
    for (size_t times = 1; seconds() < end && by->n < sizeof by->took / sizeof by->took[0];) {
        double took = timed(c, i, times);
        if (took * (double)times < 0.001)
            times *= 2;
        else
            by->took[by->n++] = took;
    }
}

static int order(const void *a, const void *b)
{
    double x = *(const double *)a, y = *(const double *)b;
    return (x > y) - (x < y);
}

/*
 * The seconds of a call in the best bundle but for a twentieth of them, or NEVER where there is none. The very best may be a
 * wrong one: on a virtual machine the clock of processor time leaves some microseconds out now and then.
 */
#define NEVER 1e9

static double best(struct bundles *by)
{
    qsort(by->took, by->n, sizeof by->took[0], order);
    return by->n ? by->took[by->n / 20] : NEVER;
}

static double less(double a, double b)
{
    return a < b ? a : b;
}

/* Every line has its turns all over the run, so that a slow while of the machine spoils some turns of each, and no line. */
static void measure(int turns)
{
    for (int t = 0; t < turns; t++)
        for (struct line *l = lines; l < lines + count; l++) {
            prepare(&l->call, PEERS);
            for (size_t i = 0; i < PEERS; i++)
                if (has(&l->call, i))
                    turn(&l->call, i, &l->by[i]);
        }
}

static void heading(const char *columns)
{
    printf("%s", columns);
    for (size_t i = 0; i < PEERS; i++)
        printf(" %10s", peers[i]->name);
    printf("    ratio\n");
}

/* MB/s of each library or, below that word, microseconds, and the unit's speed over the best peer's. */
static void print(struct line *l)
{
    double unit_took = best(&l->by[0]), peer_took = NEVER;
    printf("%s%*zu", l->name, (int)(sizeof by_2 - 1 - strlen(l->name)), l->call.n);
    for (size_t i = 0; i < PEERS; i++) {
        double took = best(&l->by[i]), us = 1e6 * took;
        if (took == NEVER)
            printf(" %10s", "-");
        else if (l->heading == microseconds)
            printf(" %10.*f", us < 1 ? 3 : 2, us);
        else
            printf(" %10.1f", (double)l->call.n / us);
        if (i > 0)
            peer_took = less(took, peer_took);
    }
    if (peer_took == NEVER)
        printf(" %8s\n", "-");
    else
        printf(" %8.2f\n", peer_took / unit_took);
}

/* The table, of the lines that the words ask for. */
static void table(const char *words, int turns)
{
    add_all();
    keep(words);
    for (size_t k = 0; k < count; k++)
        compare(&lines[k].call);
    measure(turns);
    if (count == 0)
        fprintf(stderr, "no line has all of: %s\n", words);
    for (size_t k = 0; k < count; k++) {
        if (k == 0 || lines[k].heading != lines[k - 1].heading)
            heading(lines[k].heading);
        print(&lines[k]);
    }
}

/* The unit's cost of a byte at 1 MiB over one at 64 KiB, the best of each in turns that go from one to the other. */
static double linear(int mode, int way, int turns)
{
    struct call small = { way, mode, 65536, 2 }, large = { way, mode, MOST, 2 };
    double of_small = NEVER, of_large = NEVER;
    for (int t = 0; t < 4 * turns; t++) {
        prepare(&small, 1);
        of_small = less(timed(&small, 0, 32) / 65536, of_small);
        prepare(&large, 1);
        of_large = less(timed(&large, 0, 2) / MOST, of_large);
    }
    return of_large / of_small;
}

/* Fills the stack below with a pattern; and tells how far down it was written over. */
#define DEEP 262144

static __attribute__((noinline)) void paint(void)
{
    volatile uint8_t *below = alloca(DEEP);
    for (size_t i = 0; i < DEEP; i++)
        below[i] = 0xa7;
}

static __attribute__((noinline)) size_t written_over(void)
{
    volatile uint8_t *below = alloca(DEEP);
    size_t i = 0;
    while (i < DEEP && below[i] == 0xa7)
        i++;
    return DEEP - i;
}

static size_t stack_of(int way, int mode, size_t n)
{
    struct call c = { way, mode, n, 2 };
    prepare(&c, 1);
    paint();
    call(&c, 0);
    return written_over();
}

static void costs(int turns)
{
    for (int mode = GCM; mode <= CCM; mode++)
        for (int way = SEAL; way <= OPEN; way++)
            printf("%s: a byte at 1 MiB costs %.3f of one at 64 KiB; stack %zu bytes\n", of_records[mode][way], linear(mode, way, turns),
                   stack_of(way, mode, 65536));
    printf("unwrap: stack %zu bytes\n", stack_of(UNWRAP, 0, SPADESWIRL_KEY_BYTES));
}

/* The call that the words after `once` name. */
static struct call named(int argc, char **argv)
{
    struct call c = { strcmp(argv[2], "check") ? UNWRAP : CHECK, 0, 0, 64 };
    if (argc > 5) {
        c.way = strcmp(argv[3], "open") ? SEAL : OPEN;
        c.mode = strcmp(argv[2], "GCM") ? CCM : GCM;
        c.n = (size_t)atoi(argv[4]);
        c.rows = 2;
    }
    return c;
}

int main(int argc, char **argv)
{
    ready();
    if (argc > 3 && strcmp(argv[1], "once") == 0) {
        struct call c = named(argc, argv);
        prepare(&c, 1);
        for (int k = atoi(argv[argc - 1]); k > 0; k--)
            call(&c, 0);
    } else if (argc > 2 && strcmp(argv[1], "lines") == 0) {
        table(argv[2], argc > 3 ? atoi(argv[3]) : 15);
        return count == 0;
    } else {
        int turns = argc > 1 ? atoi(argv[1]) : 15;
        table("", turns);
        costs(turns);
    }
    return 0;
}
