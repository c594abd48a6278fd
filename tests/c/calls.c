/* The unit's answers to lines of calls (calls.h), by the C interface. */
#include "calls.h"

static uint8_t aes256_encrypt(void) { return spadeswirl_aes256_encrypt(S(0), S(1)); }
static uint8_t aes256_decrypt(void) { return spadeswirl_aes256_decrypt(S(0), S(1)); }
/* The block 1,000 times over, each output the next input, up to the first refusal. */
static uint8_t thousand(uint8_t (*once)(void))
{
    uint8_t number = 0;
    for (int i = 0; i < 1000 && number == 0; i++)
        number = once();
    return number;
}

static uint8_t aes256_encrypt_1000(void) { return thousand(aes256_encrypt); }
static uint8_t aes256_decrypt_1000(void) { return thousand(aes256_decrypt); }

/* A type is lent in 16 bits: a line with a wider one is no call. */
static uint16_t sixteen_bits(uint64_t n)
{
    if (n > UINT16_MAX)
        give_up("not a call", "a number has more than 16 bits");
    return (uint16_t)n;
}

static uint8_t ccm_encrypt(void) { return spadeswirl_ccm_encrypt(S(0), S(1), S(2), S(3), OUT); }
static uint8_t ccm_decrypt(void) { return spadeswirl_ccm_decrypt(S(0), S(1), S(2), S(3), S(4), OUT); }
static uint8_t gcm_encrypt(void) { return spadeswirl_gcm_encrypt(S(0), S(1), S(2), S(3), OUT); }
static uint8_t gcm_decrypt(void) { return spadeswirl_gcm_decrypt(S(0), S(1), S(2), S(3), S(4), OUT); }
static uint8_t wrap(void) { return spadeswirl_wrap(S(0), S(1), OUT); }
static uint8_t unwrap(void) { return spadeswirl_unwrap(S(0), S(1), OUT); }
static uint8_t table_check(void) { return spadeswirl_table_check(S(0)); }
static uint8_t find(void) { return spadeswirl_find(S(0), sixteen_bits(numbers[0]), S(1), STORED); }
static uint8_t seal(void) { return spadeswirl_seal(S(0), S(1), S(2), S(3), S(4), OUT); }
static uint8_t open_record(void) { return spadeswirl_open(S(0), S(1), S(2), OUT, STORED); }
static uint8_t verify(void) { return spadeswirl_verify(S(0), S(1), S(2)); }
static uint8_t record_check(void) { return spadeswirl_record_check(S(0)); }
static uint8_t list_check(void) { return spadeswirl_list_check(S(0), FLAG(0), STORED); }
static uint8_t list_check_as(void) { return spadeswirl_list_check_as(S(0), FLAG(0), FLAG(1), STORED); }
static uint8_t list_step(void) { return spadeswirl_list_step(S(0), FLAG(0), FLAG(1), numbers[2], STORED); }
static uint8_t label_check(void) { return spadeswirl_label_check(S(0), STORED); }
static uint8_t page_read(void) { return spadeswirl_page_read(S(0), STORED); }
static uint8_t page_load(void) { return spadeswirl_page_load(S(0), S(1), OUT, STORED); }
static uint8_t page_parts(void) { return spadeswirl_page_parts(S(0), STORED); }
static uint8_t page_write(void) { return spadeswirl_page_write(CHOSEN, S(0), S(1), OUT, STORED); }
static uint8_t page_write_wrapped(void)
{
    return spadeswirl_page_write_wrapped(S(0), CHOSEN, sixteen_bits(numbers[SPADESWIRL_FIELDS_CHOSEN]), S(1), S(2), S(3), OUT, STORED);
}
static uint8_t session_start(void) { return spadeswirl_session_start(LIFE, (uint32_t)numbers[0], numbers[1]); }
static uint8_t session_issue(void) { return spadeswirl_session_issue(LIFE, OUT); }
static uint8_t seal_next(void) { return spadeswirl_seal_next(LIFE, S(0), S(1), S(2), S(3), OUT); }

static const struct call calls[] = {
    { "aes256_encrypt", 2, 0, BLOCK, 0, aes256_encrypt }, { "aes256_decrypt", 2, 0, BLOCK, 0, aes256_decrypt },
    { "aes256_encrypt_1000", 2, 0, BLOCK, 0, aes256_encrypt_1000 },
    { "aes256_decrypt_1000", 2, 0, BLOCK, 0, aes256_decrypt_1000 },
    { "ccm_encrypt", 4, 0, OUTPUT, 0, ccm_encrypt }, { "ccm_decrypt", 5, 0, OUTPUT, 0, ccm_decrypt },
    { "gcm_encrypt", 4, 0, OUTPUT, 0, gcm_encrypt }, { "gcm_decrypt", 5, 0, OUTPUT, 0, gcm_decrypt },
    { "wrap", 2, 0, OUTPUT, 0, wrap }, { "unwrap", 2, 0, OUTPUT, 0, unwrap },
    { "table_check", 1, 0, NOTHING, 0, table_check }, { "find", 2, 1, NOTHING, 1, find },
    { "seal", 5, 0, OUTPUT, 0, seal }, { "open", 3, 0, OUTPUT, 1, open_record },
    { "verify", 3, 0, NOTHING, 0, verify }, { "record_check", 1, 0, NOTHING, 0, record_check },
    { "list_check", 1, 1, NOTHING, 1, list_check }, { "list_check_as", 1, 2, NOTHING, 1, list_check_as },
    { "list_step", 1, 3, NOTHING, 2, list_step }, { "label_check", 1, 0, NOTHING, 1, label_check },
    { "page_read", 1, 0, NOTHING, 14, page_read }, { "page_load", 2, 0, OUTPUT, 14, page_load },
    { "page_parts", 1, 0, NOTHING, SPADESWIRL_PARTS, page_parts },
    { "page_write", 2, SPADESWIRL_FIELDS_CHOSEN, OUTPUT, 1, page_write },
    { "page_write_wrapped", 4, SPADESWIRL_FIELDS_CHOSEN + 1, OUTPUT, 1, page_write_wrapped },
    { "session_start", 0, 2, SESSION, 0, session_start }, { "session_issue", 0, 3, OUTPUT | SESSION, 0, session_issue },
    { "seal_next", 4, 3, OUTPUT | SESSION, 0, seal_next },
};

/* The start of a session's life; the spent byte is then what the line says. */
static void begin_session(const char *name)
{
    printf("%s.start %u", name, session_start());
    show_session();
    putchar('\n');
    (LIFE)->spent = FLAG(2);
}

int main(void)
{
    return answer_lines(calls, sizeof calls / sizeof calls[0], begin_session);
}
