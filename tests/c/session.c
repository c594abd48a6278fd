/* The IVs of one session all differ: 10,000 issues from each of several starts, sorted and compared. */
#include "cases.h"
#include "spadeswirl.h"

#define ISSUES 10000
#define IV 12

static uint8_t ivs[ISSUES][IV];

static int by_bytes(const void *a, const void *b)
{
    return memcmp(a, b, IV);
}

/* After every issue one that is refused for its room: it must not give the same number again, nor lose one. */
static void all_differ(uint32_t prefix, uint64_t start, int to_the_end)
{
    struct spadeswirl_session s;
    uint8_t room[IV];
    size_t granted = 0, refused = 0, alike = 0;
    char name[64];
    snprintf(name, sizeof name, "prefix %08lx start %016llx", (unsigned long)prefix, (unsigned long long)start);
    memset(ivs, 0, sizeof ivs);
    expect(spadeswirl_session_start(&s, prefix, start) == 0, name, "not started");
    for (size_t i = 0; i < ISSUES; i++) {
        granted += spadeswirl_session_issue(&s, ivs[i], IV) == 0;
        refused += spadeswirl_session_issue(&s, room, IV - 1) == 5;
    }
    expect(granted == ISSUES, name, "an issue was refused");
    expect(refused == ISSUES, name, "11 bytes were enough");
    expect((spadeswirl_session_issue(&s, room, IV) == 10) == to_the_end, name, "the session ends elsewhere");
    qsort(ivs, ISSUES, IV, by_bytes);
    for (size_t i = 1; i < ISSUES; i++)
        alike += memcmp(ivs[i - 1], ivs[i], IV) == 0;
    expect(alike == 0, name, "an IV came twice");
}

int main(void)
{
    static const uint64_t starts[] = { 0, 1, 255, 65000, 0xfffffffe, 0xfffff000, 0xffffffffffff, 0x7ffffffffffffff0 };
    for (size_t i = 0; i < sizeof starts / sizeof starts[0]; i++) {
        all_differ(0x01020304, starts[i], 0);
        all_differ(0xffffffff, starts[i], 0);
    }
    all_differ(0, UINT64_MAX - ISSUES, 0);
    all_differ(0, UINT64_MAX - ISSUES + 1, 1);
    return report();
}
