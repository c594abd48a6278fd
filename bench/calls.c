#include <stdio.h>
#include <stdlib.h>
#include <string.h>
#include "calls.h"
#include "spadeswirl.h"

const struct peer *const peers[PEERS] = { &unit, &openssl, &nettle, &mbedtls, &gcrypt, &bearssl };

/* The key is that of the records and, as a key-encrypting key, of the wrapped bytes. These and the pages hold the text's first 32. */
static uint8_t key[32], iv[12], aad[DATA], text[MOST], tag[PEERS][16], opened[MOST + 16];
static uint8_t sealed[PEERS][FRONT + MOST + 16], wrapped[40];

static void fail(size_t i, const char *why)
{
    printf("%s: %s\n", peers[i]->name, why);
    exit(1);
}

void ready(void)
{
    for (size_t i = 0; i < sizeof key; i++)
        key[i] = (uint8_t)(7 * i + 1);
    for (size_t i = 0; i < MOST; i++)
        text[i] = (uint8_t)(31 * i + i / 256);
    if (spadeswirl_wrap(key, sizeof key, text, sizeof key, wrapped, sizeof wrapped))
        fail(0, "a key is not wrapped");
    unit_ready(key, text);
}

int has(const struct call *c, size_t i)
{
    return c->way <= OPEN || i == 0 || (c->way == UNWRAP && peers[i]->unwrap);
}

static int of_record(const struct call *c, size_t i)
{
    uint8_t *record = sealed[i] + FRONT;
    struct message m = { key, iv, aad, DATA, c->way == OPEN ? record : text, c->n, c->way == OPEN ? opened : record, tag[i], c->rows };
    if (c->way == OPEN)
        return peers[i]->open(c->mode, &m);
    peers[i]->seal(c->mode, &m);
    return 1;
}

void call(const struct call *c, size_t i)
{
    static const char *const refused[] = { [OPEN] = "a right tag is refused", [UNWRAP] = "a right start value is refused",
        [CHECK] = "a right table is refused", [LOAD] = "a right page is refused" };
    int done = c->way == UNWRAP ? peers[i]->unwrap(key, wrapped, opened)
             : c->way == CHECK ? unit_check(c->rows)
             : c->way == LOAD ? unit_load(c->n, opened)
             : of_record(c, i);
    if (!done)
        fail(i, refused[c->way]);
}

/* The unit's record gives the associated data of the others. */
void prepare(const struct call *c, size_t few)
{
    struct call seal = *c;
    seal.way = SEAL;
    for (size_t i = 0; c->way == OPEN && i < few; i++) {
        call(&seal, i);
        if (i == 0)
            memcpy(aad, sealed[0], DATA);
    }
}

/* What each sealed is compared with what the unit did, and comes back. */
static void compare_records(const struct call *c)
{
    struct call open = *c;
    open.way = OPEN;
    prepare(&open, PEERS);
    for (size_t i = 0; i < PEERS; i++) {
        memset(opened, 0, c->n);
        call(&open, i);
        if (memcmp(sealed[i] + FRONT, sealed[0] + FRONT, c->n) || memcmp(tag[i], tag[0], 16) || memcmp(opened, text, c->n))
            fail(i, "other bytes");
    }
}

/* What the unit wrapped comes back in each library, and with any bit changed is refused; what it wrote into a page comes back. */
static void compare_keys(const struct call *c)
{
    for (size_t i = 0; i < PEERS; i++) {
        if (!has(c, i))
            continue;
        memset(opened, 0, sizeof key);
        call(c, i);
        if (memcmp(opened, text, sizeof key))
            fail(i, "another key");
        for (size_t bit = 0; c->way == UNWRAP && bit < 8 * sizeof wrapped; bit++) {
            wrapped[bit / 8] ^= (uint8_t)(1 << bit % 8);
            if (peers[i]->unwrap(key, wrapped, opened))
                fail(i, "a wrong start value is accepted");
            wrapped[bit / 8] ^= (uint8_t)(1 << bit % 8);
        }
    }
}

void compare(const struct call *c)
{
    if (c->way <= OPEN)
        compare_records(c);
    else if (c->way == CHECK)
        call(c, 0);
    else
        compare_keys(c);
}
