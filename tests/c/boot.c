/* Answers to lines of calls (calls.h), of which it knows unwrapping alone: a program over libspadeswirl_boot.a. */
#include "calls.h"

static uint8_t unwrap(void) { return spadeswirl_unwrap(S(0), S(1), OUT); }

static const struct call only = { "unwrap", 2, 0, OUTPUT, 0, unwrap };

int main(void)
{
    return answer_lines(&only, 1, NULL);
}
