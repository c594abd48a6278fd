/*
 * Lines of sealing with a session: records one after another by one session, to its end and past it; every flaw that a
 * call can have, beside every other and beside a spent session. Inputs come from a seed, which is printed.
 */
#include "rows.h"

#define LIVE 0

static const uint64_t starts[] = { 0, 1, 0xffffffff, 0xfffffffffffffffd, 0xfffffffffffffffe, 0xffffffffffffffff };

/* The rooms of a line: one byte short, just enough, more; as often as it takes. */
static void life(const char *about, struct bytes table, struct bytes name, struct bytes aad, struct bytes plain,
                 uint64_t start, unsigned spent, int calls)
{
    size_t exact = HEADER + name.len + IV + plain.len + TAG;
    struct bytes w[] = { table, name, aad, plain };
    size_t rooms[12];
    uint32_t prefix = byte() * 16777216u + byte();
    for (int i = 0; i < calls; i++)
        rooms[i] = i % 3 == 0 ? exact - 1 : i % 3 == 1 ? exact : exact + 3;
    write_life(about, "seal_next", w, 4, prefix, start, spent, rooms, (size_t)calls);
}

int main(int argc, char **argv)
{
    static const size_t texts[] = { 0, 1, 15, 16, 17, 33, 1024 };
    static const unsigned spents[] = { LIVE, 1, 0x80, 0xff };
    struct bytes broken, names[5], datas[2], long_text;
    begin(argc, argv);
    broken = changed(keys, 0, 1);
    for (unsigned mode = 1; mode <= 2; mode++)
        for (size_t i = 0; i < COUNT(texts); i++)
            for (size_t j = 0; j < COUNT(starts); j++)
                life("next", keys, row_of(mode)->name, some(j * 7), some(texts[i]), starts[j], LIVE, 12);

    names[0] = row_of(2)->name, names[1] = nothing, names[2] = some(33), names[3] = some(5), names[4] = kek->name;
    names[3].at[0] = 'z';
    datas[0] = some(20), datas[1] = some(4097);
    for (int bad = 0; bad < 2; bad++)
        for (int name = 0; name < 5; name++)
            for (int data = 0; data < 2; data++)
                for (size_t spent = 0; spent < COUNT(spents); spent++)
                    for (size_t start = 0; start < COUNT(starts); start += 5)
                        life("flaws", bad ? broken : keys, names[name], datas[data], some(18), starts[start], spents[spent], 4);

    long_text = some(PLAIN_MAX + 1);
    life("long", keys, names[0], datas[0], long_text, 0, LIVE, 2);
    life("long", keys, names[3], datas[0], long_text, 0, 1, 2);
    return 0;
}
