/*
 * made SEED PART COUNT: that many lines of random calls over all exported functions, valid and flawed, one part of what
 * the seed gives. Nothing is freed, so a part is to be some 10,000 lines.
 */
#include "made_ciphers.h"
#include "made_lists.h"
#include "made_records.h"
#include "made_writings.h"

/* How often each is drawn, among all. */
static const struct {
    unsigned weight;
    void (*draw)(void);
} draws[] = {
    { 4, any_block }, { 5, any_encryption }, { 6, any_decryption }, { 2, any_wrap }, { 4, any_unwrap },
    { 4, any_table_check }, { 6, any_find },
    { 8, any_seal }, { 14, any_open }, { 12, any_verify }, { 5, any_record_check },
    { 4, any_list_check }, { 3, any_list_step }, { 4, any_label_check },
    { 6, any_page_read }, { 4, any_page_parts }, { 16, any_page_load }, { 9, any_page_write }, { 10, any_page_write_wrapped },
    { 1, any_session_start }, { 2, any_life }, { 7, any_seal_next },
};

int main(int argc, char **argv)
{
    unsigned long part, count;
    unsigned all = 0;
    if (argc != 4)
        fail("to be called with", "SEED PART COUNT");
    start_from(argv[1]);
    part = strtoul(argv[2], NULL, 10), count = strtoul(argv[3], NULL, 10);
    state ^= part * 0x9e3779b97f4a7c15;
    lines = part * 1000000;
    for (size_t i = 0; i < COUNT(draws); i++)
        all += draws[i].weight;
    for (; count > 0; count--) {
        size_t i = 0;
        for (uint64_t at = below(all); at >= draws[i].weight; at -= draws[i++].weight)
            ;
        draws[i].draw();
    }
    return 0;
}
