/*
 * The second program: answers lines of calls as documents 01 and 02 have them, on OpenSSL's libcrypto. It shares no code
 * with the unit. Each line is NAME CALL words: byte strings, then numbers in decimal; its answer is NAME, the number,
 * and what was lent as it is after the call. An output is lent full of A5h, with as many bytes as the line's last word
 * says; so is a number stored, and a session to be started. A line of session_issue or of seal_next ends with prefix,
 * start, spent byte, and rooms with commas between: the start is answered as NAME.start, then each call by a line.
 */
#include "model/lists.h"
#include "model/modes.h"
#include "model/next.h"
#include "model/written_pages.h"

/* The most strings and numbers that a call is given, and the most numbers that one stores. */
#define STRINGS 8
#define NUMBERS (CHOSEN_FIELDS + 1)
#define STORED PAGE_FIELDS

static struct bytes lent(size_t room)
{
    struct bytes b = room_for(room);
    memset(b.at, 0xa5, b.len);
    return b;
}

/* What a call is lent: strings, numbers, an output, room for the numbers it stores, and a session. */
struct asked {
    struct bytes *w;
    const unsigned long long *n;
    struct bytes out;
    unsigned long long *stored;
    struct session *session;
};

/* A type is lent in 16 bits: a line with a wider one is no call. */
static unsigned sixteen_bits(unsigned long long n)
{
    if (n > 0xffff)
        fail("not a call", "a number has more than 16 bits");
    return (unsigned)n;
}

static int call_aes256_encrypt(struct asked a) { return block(1, 1, a.w); }
static int call_aes256_decrypt(struct asked a) { return block(0, 1, a.w); }
static int call_aes256_encrypt_1000(struct asked a) { return block(1, 1000, a.w); }
static int call_aes256_decrypt_1000(struct asked a) { return block(0, 1000, a.w); }
static int call_ccm_encrypt(struct asked a) { return mode_encrypt(1, a.w, a.out); }
static int call_ccm_decrypt(struct asked a) { return mode_decrypt(1, a.w, a.out); }
static int call_gcm_encrypt(struct asked a) { return mode_encrypt(0, a.w, a.out); }
static int call_gcm_decrypt(struct asked a) { return mode_decrypt(0, a.w, a.out); }
static int call_wrap(struct asked a) { return wrap(a.w, a.out); }
static int call_unwrap(struct asked a) { return unwrap(a.w, a.out); }
static int call_table_check(struct asked a) { return table_bad(a.w[0]); }
static int call_find(struct asked a) { return find(a.w, sixteen_bits(a.n[0]), a.stored); }
static int call_seal(struct asked a) { return seal(a.w, a.out); }
static int call_open(struct asked a) { return open_record(a.w, a.out, a.stored); }
static int call_verify(struct asked a) { return verify_record(a.w); }
static int call_record_check(struct asked a) { return record_check(a.w[0]); }
static int call_list_check(struct asked a) { return list_check(a.w[0], a.n[0] != 0, a.stored); }
static int call_list_check_as(struct asked a) { return list_check_as(a.w[0], a.n[0] != 0, a.n[1] != 0, a.stored); }
static int call_list_step(struct asked a) { return list_step(a.w[0], a.n[0] != 0, a.n[1] != 0, a.n[2], a.stored); }
static int call_label_check(struct asked a) { return label_check(a.w[0], a.stored); }
static int call_page_read(struct asked a) { return page_read(a.w[0], a.stored); }
static int call_page_load(struct asked a) { return page_load(a.w, a.out, a.stored); }
static int call_page_parts(struct asked a) { return page_parts(a.w[0], a.stored); }
static int call_page_write(struct asked a) { return page_write(a.w, a.n, a.out, a.stored); }
static int call_page_write_wrapped(struct asked a) { return page_write_wrapped(a.w, a.n, sixteen_bits(a.n[CHOSEN_FIELDS]), a.out, a.stored); }
static int call_session_start(struct asked a) { return session_start(a.session, a.n[0], a.n[1]); }
static int call_session_issue(struct asked a) { return session_issue(a.session, a.out); }
static int call_seal_next(struct asked a) { return seal_next(a.session, a.w, a.out); }

/* What an answer shows, each or none: the output that was lent, the block, the session. */
enum { NOTHING = 0, OUTPUT = 1, BLOCK = 2, SESSION = 4 };

/* How many strings and numbers a call takes, what its answer shows, how many numbers it stores, and the call. */
static const struct call {
    const char *name;
    int strings, numbers, shows, stores;
    int (*make)(struct asked);
} calls[] = {
    { "aes256_encrypt", 2, 0, BLOCK, 0, call_aes256_encrypt },
    { "aes256_decrypt", 2, 0, BLOCK, 0, call_aes256_decrypt },
    { "aes256_encrypt_1000", 2, 0, BLOCK, 0, call_aes256_encrypt_1000 },
    { "aes256_decrypt_1000", 2, 0, BLOCK, 0, call_aes256_decrypt_1000 },
    { "ccm_encrypt", 4, 0, OUTPUT, 0, call_ccm_encrypt },
    { "ccm_decrypt", 5, 0, OUTPUT, 0, call_ccm_decrypt },
    { "gcm_encrypt", 4, 0, OUTPUT, 0, call_gcm_encrypt },
    { "gcm_decrypt", 5, 0, OUTPUT, 0, call_gcm_decrypt },
    { "wrap", 2, 0, OUTPUT, 0, call_wrap },
    { "unwrap", 2, 0, OUTPUT, 0, call_unwrap },
    { "table_check", 1, 0, NOTHING, 0, call_table_check },
    { "find", 2, 1, NOTHING, 1, call_find },
    { "seal", 5, 0, OUTPUT, 0, call_seal },
    { "open", 3, 0, OUTPUT, 1, call_open },
    { "verify", 3, 0, NOTHING, 0, call_verify },
    { "record_check", 1, 0, NOTHING, 0, call_record_check },
    { "list_check", 1, 1, NOTHING, 1, call_list_check },
    { "list_check_as", 1, 2, NOTHING, 1, call_list_check_as },
    { "list_step", 1, 3, NOTHING, 2, call_list_step },
    { "label_check", 1, 0, NOTHING, 1, call_label_check },
    { "page_read", 1, 0, NOTHING, PAGE_FIELDS, call_page_read },
    { "page_load", 2, 0, OUTPUT, PAGE_FIELDS, call_page_load },
    { "page_parts", 1, 0, NOTHING, PAGE_PARTS, call_page_parts },
    { "page_write", 2, CHOSEN_FIELDS, OUTPUT, 1, call_page_write },
    { "page_write_wrapped", 4, CHOSEN_FIELDS + 1, OUTPUT, 1, call_page_write_wrapped },
    { "session_start", 0, 2, SESSION, 0, call_session_start },
    { "session_issue", 0, 3, OUTPUT | SESSION, 0, call_session_issue },
    { "seal_next", 4, 3, OUTPUT | SESSION, 0, call_seal_next },
};

static const struct call *call_named(const char *name)
{
    for (size_t i = 0; i < sizeof calls / sizeof calls[0]; i++)
        if (strcmp(name, calls[i].name) == 0)
            return &calls[i];
    return NULL;
}

/* Whether the call's line has a session's life. */
static int lives(const struct call *call)
{
    return call->make == call_session_issue || call->make == call_seal_next;
}

static void put_session(const struct session *s)
{
    put_hex(s->prefix, 4);
    printf(" %016llx %02x", (unsigned long long)s->next, s->spent);
}

/* The answer to one call; the session is the line's. */
static void answer(const char *name, const struct call *call, struct bytes *w, const unsigned long long *numbers,
                   size_t room, struct session *session)
{
    struct bytes out = lent(room);
    unsigned long long stored[STORED];
    memset(stored, 0xa5, sizeof stored);
    printf("%s %d", name, call->make((struct asked){ w, numbers, out, stored, session }));
    if (call->shows & OUTPUT)
        put_hex(out.at, out.len);
    if (call->shows & BLOCK)
        put_hex(w[1].at, w[1].len);
    if (call->shows & SESSION)
        put_session(session);
    for (int i = 0; i < call->stores; i++)
        printf(" %016llx", stored[i]);
    putchar('\n');
    free(out.at);
}

/* The answers to a line's call, one for each of its rooms. */
static void answers(const char *name, const struct call *call, char **words)
{
    struct bytes w[STRINGS];
    unsigned long long numbers[NUMBERS];
    struct session session;
    for (int i = 0; i < call->strings; i++)
        w[i] = from_hex(words[i]);
    for (int i = 0; i < call->numbers; i++)
        numbers[i] = strtoull(words[call->strings + i], NULL, 10);
    memset(&session, 0xa5, sizeof session);
    if (lives(call)) {
        printf("%s.start %d", name, session_start(&session, numbers[0], numbers[1]));
        put_session(&session);
        putchar('\n');
        session.spent = (unsigned char)numbers[2];
    }
    if (call->shows & OUTPUT)
        for (char *r = strtok(words[call->strings + call->numbers], ","); r; r = strtok(NULL, ","))
            answer(name, call, w, numbers, strtoul(r, NULL, 10), &session);
    else
        answer(name, call, w, numbers, 0, &session);
    for (int i = 0; i < call->strings; i++)
        free(w[i].at);
}

int main(void)
{
    char *line = NULL, *words[WORDS];
    size_t room = 0;
    while (next_line(stdin, &line, &room)) {
        int n = cut_words(line, words);
        const struct call *call;
        if (n == 0 || words[0][0] == '#')
            continue;
        call = n > 1 ? call_named(words[1]) : NULL;
        if (!call || n != 2 + call->strings + call->numbers + (call->shows & OUTPUT ? 1 : 0))
            fail("not a call", words[0]);
        answers(words[0], call, words + 2);
    }
    free(line);
    return 0;
}
