/*
 * Lines of calls on key tables: of 0 to 66 rows; names that begin alike, or differ in a zero byte at the end, with each
 * type; every byte of a table changed; totals, counts, offsets and row lengths that do not fit; two rows of one name.
 */
#include "calls.h"

static unsigned char table[8 + 72 * 80];

static void check(const char *about, size_t len)
{
    struct bytes t = { table, len };
    write_call(about, "table_check", &t, 1, NO_OUTPUT);
}

static void look_up(const char *about, size_t len, const char *name, size_t name_len, unsigned type)
{
    struct bytes w[] = { { table, len }, { (unsigned char *)name, name_len } };
    write_find(about, w, type);
}

/* By each type that a row can have, and by two that none can. */
static void look_up_each(const char *about, size_t len, const char *name, size_t name_len)
{
    static const unsigned types[] = { 0, 1, 2, 3, 0xffff };
    for (size_t i = 0; i < COUNT(types); i++)
        look_up(about, len, name, name_len, types[i]);
}

/*
 * A table of so many rows; the name of row i is "K", then i in two digits, then i % 29 letters. Every third is a
 * key-encrypting key, of type 1 and 2 in turn.
 */
static size_t make(unsigned rows)
{
    memset(table, 0, sizeof table);
    table[1] = 1, table[2] = (unsigned char)(rows / 256), table[3] = (unsigned char)rows, table[5] = 8, table[7] = 72;
    for (unsigned i = 0; i < rows; i++) {
        unsigned char *row = table + 8 + 72 * i;
        row[0] = (unsigned char)(3 + i % 29 + (i % 29 == 28));
        row[1] = (unsigned char)(1 + i % 3);
        row[3] = (unsigned char)(i % 3 == 2 ? 1 + i / 3 % 2 : 0);
        row[8] = 'K', row[9] = (unsigned char)('0' + i / 10), row[10] = (unsigned char)('0' + i % 10);
        for (unsigned k = 3; k < row[0]; k++)
            row[8 + k] = (unsigned char)('a' + k % 26);
        for (unsigned k = 40; k < 72; k++)
            row[k] = (unsigned char)(i * 7 + k);
    }
    return 8 + 72 * (size_t)rows;
}

static void name_row(unsigned i, const char *name, size_t len)
{
    unsigned char *row = table + 8 + 72 * i;
    memset(row + 8, 0, 32);
    memcpy(row + 8, name, len);
    row[0] = (unsigned char)len;
}

int main(void)
{
    static const char tapes[][8] = { "TAPE1", "TAPE10", "TAPE1\0", "TAPE", "TAPE1\0\0", "tape1", "" };
    static const size_t sizes[] = { 5, 6, 6, 4, 7, 5, 0 };
    char longest[40] = "a name of 32 bytes, and no longer";
    size_t len;

    for (unsigned rows = 0; rows <= 66; rows++) {
        len = make(rows);
        check("rows", len);
        for (unsigned i = 0; i < rows; i += 5)
            look_up_each("row", len, (char *)table + 8 + 72 * i + 8, table[8 + 72 * i]);
        look_up_each("none", len, "no such name", 12);
        look_up_each("empty", len, "", 0);
        look_up_each("long", len, longest, 33);
        look_up_each("longest", len, longest, 32);
    }

    /* each way to have some of these names, each looked up */
    for (unsigned have = 0; have < 64; have++) {
        unsigned rows = 0;
        make(6);
        for (unsigned i = 0; i < 6; i++)
            if (have >> i & 1)
                name_row(rows++, tapes[i], sizes[i]);
        table[3] = (unsigned char)rows;
        for (unsigned i = 0; i < 7; i++)
            look_up_each("tape", 8 + 72 * (size_t)rows, tapes[i], sizes[i]);
    }

    /* every byte changed, by one and by its top bit; looked up by the name of a row that stays */
    len = make(3);
    for (size_t i = 0; i < len; i++)
        for (int by = 1; by <= 128; by += 127) {
            table[i] ^= (unsigned char)by;
            check("changed", len);
            look_up("changed", len, "K01d", 4, 0);
            table[i] ^= (unsigned char)by;
        }

    /* totals that do not fit, down to nothing */
    for (size_t n = 0; n <= len + 80; n++)
        check("total", n);
    for (unsigned rows = 0; rows < 70; rows++) {
        make(64);
        table[3] = (unsigned char)rows;
        check("count", 8 + 72 * 64);
        table[2] = 1;
        check("count", 8 + 72 * 64);
    }

    /* each pair of rows with one name, use and type, and with the name alone */
    for (unsigned i = 0; i < 8; i++)
        for (unsigned j = 0; j < 8; j++) {
            unsigned char *row = table + 8 + 72 * i, *other = table + 8 + 72 * j;
            len = make(8);
            memmove(other, row, 40);
            check("pair", len);
            make(8);
            other[0] = row[0], memmove(other + 8, row + 8, 32);
            check("names", len);
            look_up_each("names", len, (char *)row + 8, row[0]);
        }
    return 0;
}
