/*
 * GHASH by a way of its own: a block is a polynomial over the field of two elements, products are of whole polynomials,
 * and are then divided by u^128 + u^7 + u^2 + u + 1. Reads lines of words and answers each: `hash KEY BLOCKS` by the hash,
 * `product X Y` by the field product, `sum X Y` by the exclusive or. With a seed for an argument it tries its hash beside
 * the tags of libcrypto's GCM, and then the laws of docs/TAG_BENCH.md; it ends with a line 'N passed, M failed'.
 */
#include "bytes.h"
#include "ciphers.h"
#include "lines/calls.h"

enum { BLOCK = 16, BITS = 128, TRIES = 500 };

/* The coefficient of u^i in a block: its bits in order, each byte's highest first. */
static int coefficient(const unsigned char *block, int i)
{
    return block[i / 8] >> (7 - i % 8) & 1;
}

static void product(const unsigned char *x, const unsigned char *y, unsigned char *result)
{
    unsigned char terms[2 * BITS] = { 0 };
    for (int i = 0; i < BITS; i++)
        for (int j = 0; j < BITS; j++)
            terms[i + j] ^= (unsigned char)(coefficient(x, i) & coefficient(y, j));
    for (int k = 2 * BITS - 1; k >= BITS; k--) {
        terms[k - 128] ^= terms[k];
        terms[k - 127] ^= terms[k];
        terms[k - 126] ^= terms[k];
        terms[k - 121] ^= terms[k];
    }
    memset(result, 0, BLOCK);
    for (int i = 0; i < BITS; i++)
        result[i / 8] |= (unsigned char)(terms[i] << (7 - i % 8));
}

static struct bytes product_of(struct bytes x, struct bytes y)
{
    struct bytes result = room_for(BLOCK);
    if (x.len != BLOCK || y.len != BLOCK)
        fail("not a block", "product");
    product(x.at, y.at, result.at);
    return result;
}

static struct bytes sum_of(struct bytes x, struct bytes y)
{
    struct bytes result = room_for(x.len);
    if (x.len != y.len)
        fail("not as long as each other", "sum");
    for (size_t i = 0; i < x.len; i++)
        result.at[i] = x.at[i] ^ y.at[i];
    return result;
}

static struct bytes hash_of(struct bytes key, struct bytes blocks)
{
    struct bytes state = room_for(BLOCK);
    if (key.len != BLOCK || blocks.len % BLOCK)
        fail("not whole blocks", "hash");
    memset(state.at, 0, BLOCK);
    for (size_t at = 0; at < blocks.len; at += BLOCK) {
        for (int i = 0; i < BLOCK; i++)
            state.at[i] ^= blocks.at[at + (size_t)i];
        product(state.at, key.at, state.at);
    }
    return state;
}

/* Zeros up to a whole block. */
static struct bytes filled(struct bytes b)
{
    static unsigned char zeros[BLOCK];
    return joined(b, (struct bytes){ zeros, (BLOCK - b.len % BLOCK) % BLOCK });
}

static unsigned long passed, failed;

static void test(const char *what, struct bytes a, struct bytes b)
{
    if (a.len == b.len && memcmp(a.at, b.at, a.len) == 0) {
        passed++;
        return;
    }
    printf("FAILED %s\n", what);
    failed++;
}

/* SP 800-38D, section 7.1: the tag is the hash of data, text and lengths, with the cipher of the first counter block added. */
static void try_tag(void)
{
    struct bytes key = some(32), iv = some(12), data = some(byte() % 70), text = some(byte() % 70);
    struct bytes hash_key = room_for(BLOCK), pad = room_for(BLOCK), lengths = room_for(BLOCK), sealed = room_for(text.len), tag = room_for(BLOCK);
    memset(hash_key.at, 0, BLOCK);
    aes_block(1, key.at, hash_key.at);
    memcpy(pad.at, iv.at, 12);
    put(pad.at + 12, 4, 1);
    aes_block(1, key.at, pad.at);
    put(lengths.at, 8, 8 * data.len);
    put(lengths.at + 8, 8, 8 * text.len);
    aead_encrypt(0, key, iv, data, text, sealed.at, tag.at);
    test("the hash with its pad is not the tag", sum_of(hash_of(hash_key, joined(joined(filled(data), filled(sealed)), lengths)), pad), tag);
}

static void try_laws(void)
{
    static unsigned char first_bit[BLOCK] = { 0x80 };
    struct bytes x = some(BLOCK), y = some(BLOCK), z = some(BLOCK), one = { first_bit, BLOCK };
    size_t blocks = byte() % 9;
    struct bytes bs = some(BLOCK * blocks), cs = some(BLOCK * blocks);
    test("the factors' order is not free", product_of(x, y), product_of(y, x));
    test("the brackets are not free", product_of(product_of(x, y), z), product_of(x, product_of(y, z)));
    test("the first factor does not distribute", product_of(sum_of(x, y), z), sum_of(product_of(x, z), product_of(y, z)));
    test("the second factor does not distribute", product_of(x, sum_of(y, z)), sum_of(product_of(x, y), product_of(x, z)));
    test("one times a block is another block", product_of(one, x), x);
    test("a block times one is another block", product_of(x, one), x);
    test("the hash of a sum is not the sum of the hashes", hash_of(z, sum_of(bs, cs)), sum_of(hash_of(z, bs), hash_of(z, cs)));
}

static struct bytes answer(const char *what, struct bytes a, struct bytes b)
{
    if (strcmp(what, "hash") == 0)
        return hash_of(a, b);
    if (strcmp(what, "product") == 0)
        return product_of(a, b);
    if (strcmp(what, "sum") != 0)
        fail("neither hash, product nor sum", what);
    return sum_of(a, b);
}

int main(int count, char **arguments)
{
    char *line = NULL, *words[WORDS];
    size_t room = 0;
    if (count == 2) {
        start_from(arguments[1]);
        for (int i = 0; i < TRIES; i++)
            try_tag(), try_laws();
        printf("%lu passed, %lu failed\n", passed, failed);
        return failed > 0;
    }
    while (next_line(stdin, &line, &room)) {
        struct bytes result;
        if (cut_words(line, words) != 3)
            fail("not three words", line);
        result = answer(words[0], from_hex(words[1]), from_hex(words[2]));
        printf("%s", words[0]);
        put_hex(result.at, result.len);
        putchar('\n');
    }
    return 0;
}
