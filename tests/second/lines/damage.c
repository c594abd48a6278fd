/*
 * Lines of calls on records that are not as they were sealed: every byte changed, every length; header words that do
 * not fit, alone and together, with the tag made right over them; counts whose offsets cannot be written. Inputs come
 * from a seed, which is printed.
 */
#include "rows.h"

/* Every byte changed by one and by its top bit, every bit of the tag, and every length up to one byte more. */
static void damaged(unsigned mode, size_t k, size_t n)
{
    const struct row *r = &rows[4 * (mode - 1) + k];
    struct bytes aad = some(3), record = record_by(r, aad, n), longer = joined(record, some(1));
    for (size_t i = 0; i < record.len; i++)
        for (unsigned by = 1; by <= 128; by += 127) {
            checks("damaged", changed(record, i, by));
            opens_and_verifies("damaged", keys, changed(record, i, by), aad, n + 2);
        }
    for (size_t bit = 0; bit < 128; bit++)
        opens_and_verifies("tag", keys, changed(record, record.len - 16 + bit / 8, 1u << bit % 8), aad, n);
    for (size_t len = 0; len <= longer.len; len++) {
        checks("cut", cut(longer, len));
        opens_and_verifies("cut", keys, cut(longer, len), aad, n + 2);
    }
}

/* A record of five bytes of text with each word of a set moved by one, the tag right over the changed front. */
static void moved(const char *about, unsigned mode, const struct word *words, unsigned count, unsigned set, int by)
{
    const struct row *r = row_of(mode);
    struct bytes front = front_of(mode, r->name, 5), aad = some(3), record;
    size_t more = 0;
    for (unsigned i = 0; i < count; i++)
        if (set >> i & 1) {
            if (words[i].size)
                put(front.at + words[i].at, words[i].size, get(front.at + words[i].at, words[i].size) + (uint64_t)by);
            else
                more = (size_t)by;
        }
    record = joined(record_of(mode == 1, r->key, front, some(IV), aad, some(5)), some(1));
    record.len += more - 1;
    checks(about, record);
    opens_and_verifies(about, keys, record, aad, 8);
}

static void headers(unsigned mode)
{
    static const struct word by_k[] = { { 10, 2 }, { 12, 2 }, { 16, 4 }, { 20, 4 }, { 0, 0 } };
    static const struct word by_n[] = { { 4, 4 }, { 20, 4 }, { 0, 0 } };
    for (int by = -1; by <= 1; by += 2) {
        for (unsigned i = 0; i < COUNT(header_words); i++)
            for (unsigned j = 0; j <= i; j++)
                moved("header", mode, header_words, COUNT(header_words), 1u << i | 1u << j, by);
        for (unsigned set = 0; set < 32; set++)
            moved("follows-k", mode, by_k, COUNT(by_k), set, by);
        for (unsigned set = 0; set < 8; set++)
            moved("follows-n", mode, by_n, COUNT(by_n), set, by);
    }
    for (unsigned value = 0; value < 256; value++) {
        struct bytes record = record_of(mode == 1, row_of(mode)->key, front_of(value, row_of(mode)->name, 5), some(IV),
                                        nothing, some(5));
        checks("mode", record);
        checks("mode", cut(record, record.len - 1));
        if (value < 5) {
            opens_and_verifies("mode", keys, record, nothing, 5);
            opens_and_verifies("mode", keys, cut(record, record.len - 1), nothing, 5);
        }
    }
}

/* Counts and name lengths whose offsets cannot be written, with words and totals as sums of 32 and of 16 bits have them. */
static void narrow_sums(unsigned mode)
{
    static const size_t names[] = { 0xffe7, 0xffe8, 0xfff0, 0xffff };
    const struct row *r = row_of(mode);
    for (uint64_t less = 1; less <= 52 + r->name.len; less++) {
        struct bytes front = front_of(mode, r->name, 0x100000000 - less);
        struct bytes record = record_of(mode == 1, r->key, front, some(IV), nothing, nothing);
        checks("narrow", cut(record, record.len - less));
        opens_and_verifies("narrow", keys, cut(record, record.len - less), nothing, 40);
        checks("narrow", record);
    }
    for (size_t i = 0; i < COUNT(names); i++) {
        struct row longer = data_row(some(names[i]), r->key, mode);
        struct bytes record = record_by(&longer, nothing, 3);
        checks("narrow", record);
        opens_and_verifies("narrow", keys, record, nothing, 3);
        checks("narrow", cut(record, (uint16_t)record.len));
    }
}

int main(int argc, char **argv)
{
    begin(argc, argv);
    for (unsigned mode = 1; mode <= 2; mode++) {
        for (size_t k = 0; k < 2; k++)
            for (size_t n = 0; n <= 17; n += 17)
                damaged(mode, k, n);
        headers(mode);
        narrow_sums(mode);
    }
    return 0;
}
