/*
 * AES's two S-boxes, worked out from FIPS 197 alone: the inverse of a byte is found by trying each, products are of whole
 * polynomials, which are then divided by x^8 + x^4 + x^3 + x + 1, and section 5.1.1's map is made bit by bit. With no word
 * it prints both. Each word is a file, which it answers by a line: the file; how many of the S-box's sixteen rows stand
 * in it; at how many of its places eight bytes in a row of the inverse S-box begin; and for the first of these where it
 * is in the file and in the inverse S-box, `- -` where there is none.
 */
#include "bytes.h"

enum { VALUES = 256, ROW = 16, PIECE = 8 };

static unsigned char sbox[VALUES], inverse[VALUES];

static unsigned product(unsigned a, unsigned b)
{
    unsigned result = 0;
    for (int i = 0; i < 8; i++)
        if (b >> i & 1)
            result ^= a << i;
    for (int i = 14; i >= 8; i--)
        if (result >> i & 1)
            result ^= 0x11bu << (i - 8);
    return result;
}

/* The byte whose product with this one is 01h; 00h, which has none, is mapped to itself. */
static unsigned field_inverse(unsigned a)
{
    for (unsigned b = 1; b < VALUES; b++)
        if (product(a, b) == 1)
            return b;
    return 0;
}

/* Section 5.1.1: each bit is the sum of five bits of the byte and of one of 63h. */
static unsigned affine(unsigned b)
{
    unsigned result = 0;
    for (int i = 0; i < 8; i++) {
        unsigned bit = b >> i ^ b >> (i + 4) % 8 ^ b >> (i + 5) % 8 ^ b >> (i + 6) % 8 ^ b >> (i + 7) % 8 ^ 0x63u >> i;
        result |= (bit & 1) << i;
    }
    return result;
}

static void make_both(void)
{
    for (unsigned a = 0; a < VALUES; a++) {
        sbox[a] = (unsigned char)affine(field_inverse(a));
        inverse[sbox[a]] = (unsigned char)a;
    }
    for (unsigned a = 0; a < VALUES; a++)
        if (inverse[sbox[a]] != a)
            fail("not one to one", "S-box");
}

static void put_table(const char *name, const unsigned char *table)
{
    printf("%s", name);
    put_hex(table, VALUES);
    putchar('\n');
}

/* All of a file: a part of it would hide what the rest holds. */
static struct bytes whole(const char *path)
{
    FILE *in = fopen(path, "rb");
    struct bytes all;
    long size = in && fseek(in, 0, SEEK_END) == 0 ? ftell(in) : -1;
    if (size < 0 || fseek(in, 0, SEEK_SET) != 0)
        fail("cannot read", path);
    all = room_for((uint64_t)size);
    if (fread(all.at, 1, all.len, in) != all.len || getc(in) != EOF)
        fail("cannot read", path);
    fclose(in);
    return all;
}

/* At how many places of a file a piece of so many bytes begins; *first is lowered to the first of them. */
static size_t places(struct bytes file, const unsigned char *piece, size_t len, size_t *first)
{
    size_t count = 0;
    for (size_t at = 0; at + len <= file.len; at++)
        if (memcmp(file.at + at, piece, len) == 0) {
            count++;
            if (at < *first)
                *first = at;
        }
    return count;
}

static void answer(const char *path)
{
    struct bytes file = whole(path);
    size_t rows = 0, found = 0, row = file.len, first = file.len, from = 0;
    for (size_t i = 0; i < VALUES; i += ROW)
        rows += places(file, sbox + i, ROW, &row) > 0;
    for (size_t i = 0; i + PIECE <= VALUES; i++) {
        size_t before = first;
        found += places(file, inverse + i, PIECE, &first);
        if (first < before)
            from = i;
    }
    printf("%s %zu %zu", path, rows, found);
    if (found)
        printf(" %zu %zu\n", first, from);
    else
        printf(" - -\n");
    free(file.at);
}

int main(int count, char **paths)
{
    make_both();
    if (count == 1) {
        put_table("sbox", sbox);
        put_table("inverse", inverse);
    }
    for (int i = 1; i < count; i++)
        answer(paths[i]);
    return 0;
}
