/*
 * Spadeswirl: the encryption unit of a tape drive, for C and C++. Link with
 * libspadeswirl.a (`rt lib --cpu x86-64` in crates/spadeswirl writes it to out
 * there, for x86-64). Every layout of bytes is in docs/FORMATS.md.
 *
 * A text sealed by the row TAPE1 of a key table, with the next IV of a session,
 * and opened again:
 *
 *     struct spadeswirl_session session;
 *     uint8_t record[SPADESWIRL_RECORD_BYTES(5, 6)], text[6];
 *     uint64_t n;
 *
 *     spadeswirl_session_start(&session, 1, 1);
 *     if (spadeswirl_seal_next(&session, table, table_len,
 *                              (const uint8_t *)"TAPE1", 5, NULL, 0,
 *                              (const uint8_t *)"reel 7", 6,
 *                              record, sizeof record) == SPADESWIRL_DONE
 *         && spadeswirl_open(table, table_len, record, sizeof record, NULL, 0,
 *                            text, sizeof text, &n) == SPADESWIRL_DONE)
 *         restored(text, n);
 *
 * A byte string is a pointer and its length. The pointer may be null where
 * the length is 0. A string that a call only reads is const.
 *
 * Every call takes any lengths and any bytes, ends, and answers one number of
 * those below. After any number but 0 nothing that was lent has changed. After
 * 0 the bytes of an output past the result are as they were. No call allocates,
 * keeps a pointer, or has a state of its own; what it writes besides what it is
 * lent is its stack (up to some 28 KB).
 *
 * What the caller owes, since no statement can say it: each pointer is good
 * for its length, and one to a number, to fields, to places or to a session
 * for the whole of that; and whatever a call may write (an output, a block, a
 * number, fields, places, a session) overlaps nothing else that the same call
 * is lent. Strings that a call only reads may overlap one another.
 *
 * How long a call takes, and what is left on the stack after it, no statement
 * says either: docs/TRUST.md.
 */
#ifndef SPADESWIRL_H
#define SPADESWIRL_H

#include <stddef.h>
#include <stdint.h>

#ifdef __cplusplus
extern "C" {
#endif

/*
 * The numbers. Where several apply the lowest is given; docs/FORMATS.md says
 * when each does, call by call.
 */
enum {
    SPADESWIRL_DONE = 0,
    SPADESWIRL_BAD_TABLE = 1,          /* the key table is not accepted */
    SPADESWIRL_BAD_LAYOUT = 2,         /* other bytes break their layout, a type is reserved, or a lent length is wrong */
    SPADESWIRL_NOT_PERMITTED = 3,      /* a mode, field, KEK type or format that is not known */
    SPADESWIRL_OVER_MAXIMUM = 4,
    SPADESWIRL_SHORT_OUTPUT = 5,
    SPADESWIRL_NO_ROW = 6,             /* no row has that type and exactly that name */
    SPADESWIRL_OTHER_USE = 7,          /* the row is there, and is for another mode */
    SPADESWIRL_BAD_WRAPPED_LENGTH = 8,
    SPADESWIRL_NOT_AUTHENTIC = 9,      /* the tag, or the start value of a wrapped key, is wrong */
    SPADESWIRL_SESSION_SPENT = 10
};

/* The use of a row, the mode of a record, and the ALGORITHM INDEX of a page. */
enum {
    SPADESWIRL_CCM = 1,
    SPADESWIRL_GCM = 2,
    SPADESWIRL_KEK = 3                 /* of a row alone: a key-encrypting key */
};

/* Lengths in bytes. */
enum {
    SPADESWIRL_KEY_BYTES = 32,
    SPADESWIRL_BLOCK_BYTES = 16,
    SPADESWIRL_IV_BYTES = 12,
    SPADESWIRL_TAG_BYTES = 16,
    SPADESWIRL_WRAPPED_BYTES = 40,     /* a key of 32 bytes, wrapped */
    SPADESWIRL_TABLE_HEADER_BYTES = 8,
    SPADESWIRL_ROW_BYTES = 72,
    SPADESWIRL_RECORD_HEADER_BYTES = 24,
    SPADESWIRL_PAGE_HEADER_BYTES = 20, /* before a page's KEY part */
    SPADESWIRL_DESCRIPTOR_HEADER_BYTES = 4,
    SPADESWIRL_LABEL_HEADER_BYTES = 2,
    SPADESWIRL_PREFIX_BYTES = 4        /* of a session */
};

/* Maxima, and the one minimum: of rows a count, of all else bytes. */
enum {
    SPADESWIRL_TEXT_MAX = 1048576,     /* plaintext or ciphertext */
    SPADESWIRL_AAD_MAX = 4096,         /* the caller's associated data for a record */
    SPADESWIRL_MODE_AAD_MAX = 4152,    /* a mode's, called by itself */
    SPADESWIRL_NAME_MAX = 32,          /* a key name, a reference, an identifier */
    SPADESWIRL_REFERENCE_MIN = 9,
    SPADESWIRL_ROWS_MAX = 64,
    SPADESWIRL_PAGE_MAX = 4096,
    SPADESWIRL_LABEL_MAX = 4096
};

/* The length of a table with so many rows, of a record with a name of k bytes and a plaintext of n, and the longest of each. */
#define SPADESWIRL_TABLE_BYTES(rows) (SPADESWIRL_TABLE_HEADER_BYTES + SPADESWIRL_ROW_BYTES * (size_t)(rows))
#define SPADESWIRL_RECORD_OVERHEAD (SPADESWIRL_RECORD_HEADER_BYTES + SPADESWIRL_IV_BYTES + SPADESWIRL_TAG_BYTES)
#define SPADESWIRL_RECORD_BYTES(k, n) (SPADESWIRL_RECORD_OVERHEAD + (size_t)(k) + (size_t)(n))
#define SPADESWIRL_TABLE_MAX SPADESWIRL_TABLE_BYTES(SPADESWIRL_ROWS_MAX)
#define SPADESWIRL_RECORD_MAX SPADESWIRL_RECORD_BYTES(SPADESWIRL_NAME_MAX, SPADESWIRL_TEXT_MAX)

/* The KEY FORMAT of a page. */
enum {
    SPADESWIRL_FORMAT_KEY = 0,
    SPADESWIRL_FORMAT_REFERENCE = 1,
    SPADESWIRL_FORMAT_WRAPPED = 4
};

/* The type of a row: of a key-encrypting key the KEK type of the pages that name it, of any other row DATA. */
enum {
    SPADESWIRL_TYPE_DATA = 0,
    SPADESWIRL_KEK_DS_SAI = 1,         /* the identifier is a DS_SAI */
    SPADESWIRL_KEK_ASSIGNED = 2        /* the device server assigned it */
};

/* The places of a page's fields among those that are stored, and their count. */
enum {
    SPADESWIRL_FIELD_SCOPE,
    SPADESWIRL_FIELD_LOCK,
    SPADESWIRL_FIELD_CEEM,
    SPADESWIRL_FIELD_RDMC,
    SPADESWIRL_FIELD_SDK,
    SPADESWIRL_FIELD_CKOD,
    SPADESWIRL_FIELD_CKORP,
    SPADESWIRL_FIELD_CKORL,
    SPADESWIRL_FIELD_ENCRYPTION_MODE,
    SPADESWIRL_FIELD_DECRYPTION_MODE,
    SPADESWIRL_FIELD_ALGORITHM_INDEX,
    SPADESWIRL_FIELD_KEY_FORMAT,
    SPADESWIRL_FIELD_KEY_LENGTH,
    SPADESWIRL_FIELD_DESCRIPTORS,      /* how many the page has, none of them reserved */
    SPADESWIRL_FIELDS
};

/* The first of them, up to KEY FORMAT, are what a page is written from; KEY LENGTH and the count follow from what else it is written from. */
#define SPADESWIRL_FIELDS_CHOSEN SPADESWIRL_FIELD_KEY_LENGTH

/* The places of what is stored of a page's parts, and their count. */
enum {
    SPADESWIRL_PART_LIST,              /* where its descriptor list begins */
    SPADESWIRL_PART_KEK_TYPE,
    SPADESWIRL_PART_IDENTIFIER,        /* where the identifier begins */
    SPADESWIRL_PART_WRAPPED,           /* where it ends and the wrapped key begins */
    SPADESWIRL_PARTS
};

/*
 * AES-256 (FIPS 197): encrypts or decrypts one block in place. Numbers: 0; 2
 * for another length of key or block.
 *
 * This is the bare block cipher. To encrypt data use a mode, and to encrypt
 * records use the calls that take a key table.
 */
uint8_t spadeswirl_aes256_encrypt(const uint8_t *key, size_t key_len,
                                  uint8_t *block, size_t block_len);
uint8_t spadeswirl_aes256_decrypt(const uint8_t *key, size_t key_len,
                                  uint8_t *block, size_t block_len);

/*
 * CCM (SP 800-38C) and GCM (SP 800-38D) under AES-256, without a record. That
 * no IV is used twice with one key is the caller's to see to.
 *
 * Encrypts a text: fills the first plain_len + SPADESWIRL_TAG_BYTES bytes of
 * the output, ciphertext, then tag. Numbers: 0, 2, 4, 5.
 */
uint8_t spadeswirl_ccm_encrypt(const uint8_t *key, size_t key_len,
                               const uint8_t *iv, size_t iv_len,
                               const uint8_t *aad, size_t aad_len,
                               const uint8_t *plain, size_t plain_len,
                               uint8_t *out, size_t out_len);
uint8_t spadeswirl_gcm_encrypt(const uint8_t *key, size_t key_len,
                               const uint8_t *iv, size_t iv_len,
                               const uint8_t *aad, size_t aad_len,
                               const uint8_t *plain, size_t plain_len,
                               uint8_t *out, size_t out_len);

/*
 * Decrypts a text whose tag is right: is lent the tag apart, fills the first
 * text_len bytes of the output, and writes no byte before the tag is found
 * right (CCM goes over the ciphertext twice). Numbers: 0, 2, 4, 5, 9.
 */
uint8_t spadeswirl_ccm_decrypt(const uint8_t *key, size_t key_len,
                               const uint8_t *iv, size_t iv_len,
                               const uint8_t *aad, size_t aad_len,
                               const uint8_t *text, size_t text_len,
                               const uint8_t *tag, size_t tag_len,
                               uint8_t *out, size_t out_len);
uint8_t spadeswirl_gcm_decrypt(const uint8_t *key, size_t key_len,
                               const uint8_t *iv, size_t iv_len,
                               const uint8_t *aad, size_t aad_len,
                               const uint8_t *text, size_t text_len,
                               const uint8_t *tag, size_t tag_len,
                               uint8_t *out, size_t out_len);

/*
 * AES Key Wrap (NIST, November 2001): wraps a key under a key-encrypting key,
 * into the first SPADESWIRL_WRAPPED_BYTES of the output. Numbers: 0, 2, 5.
 */
uint8_t spadeswirl_wrap(const uint8_t *kek, size_t kek_len,
                        const uint8_t *key, size_t key_len,
                        uint8_t *out, size_t out_len);

/*
 * Unwraps a key into the first SPADESWIRL_KEY_BYTES of the output, once its
 * start value is found right. Numbers: 0; 2 for another length of KEK; 5; 8; 9.
 * A boot part that calls nothing else may link libspadeswirl_boot.a, which has
 * this call alone (`rt lib --cpu x86-64` in crates/spadeswirl_boot).
 */
uint8_t spadeswirl_unwrap(const uint8_t *kek, size_t kek_len,
                          const uint8_t *wrapped, size_t wrapped_len,
                          uint8_t *out, size_t out_len);

/*
 * Tests a key table, which the caller makes. Numbers: 0, 1. The calls below
 * that take a table test it themselves.
 */
uint8_t spadeswirl_table_check(const uint8_t *table, size_t table_len);

/*
 * Stores the use of the row with that type and exactly that name. Rows of one
 * name and of different types are different rows. Numbers: 0; 1; 2 for an empty
 * name; 3 for a type over 2; 4 for a long name; 6. The place of a row is never
 * answered, since other rows may move it.
 */
uint8_t spadeswirl_find(const uint8_t *table, size_t table_len, uint16_t type,
                        const uint8_t *name, size_t name_len, uint64_t *use);

/*
 * Seals a text into a record by the row of type SPADESWIRL_TYPE_DATA and
 * exactly that name, whose use is the mode: fills the first
 * SPADESWIRL_RECORD_BYTES(name_len, plain_len) bytes of the output. A fresh IV
 * is the caller's to see to, as above, or a session's (below). Numbers: 0; 1; 2
 * for an empty name or another length of IV; 4; 5; 6, also where only
 * key-encrypting keys have that name.
 */
uint8_t spadeswirl_seal(const uint8_t *table, size_t table_len,
                        const uint8_t *name, size_t name_len,
                        const uint8_t *iv, size_t iv_len,
                        const uint8_t *aad, size_t aad_len,
                        const uint8_t *plain, size_t plain_len,
                        uint8_t *out, size_t out_len);

/*
 * An IV session: a prefix, the next number, and whether the last IV has been
 * given; any value of spent but 0 says so. The caller holds it, and a call
 * advances it there, exactly when it answers 0.
 *
 * The IVs of one session all differ. A saved copy of a session that is used
 * again, or two sessions of one prefix under one key, is outside what is
 * promised: there an IV may come twice.
 */
struct spadeswirl_session {
    uint8_t prefix[SPADESWIRL_PREFIX_BYTES];
    uint64_t next;
    uint8_t spent;
};

/*
 * Starts a session, whatever it held before: its first IV is the prefix in four
 * bytes, then start in eight. Always 0.
 */
uint8_t spadeswirl_session_start(struct spadeswirl_session *session,
                                 uint32_t prefix, uint64_t start);

/*
 * Writes a session's next IV over the first SPADESWIRL_IV_BYTES of the output.
 * Numbers: 0; 5; 10 once the IV of 2^64 - 1 has been given.
 */
uint8_t spadeswirl_session_issue(struct spadeswirl_session *session,
                                 uint8_t *out, size_t out_len);

/*
 * Seals a text with the next IV of a session, which is written nowhere but in
 * the record: what spadeswirl_seal does with that IV. The session advances
 * exactly when the answer is 0, so that no IV is used twice by mistake.
 * Numbers: 0; 1; 2 for an empty name; 4, 5, 6 as for spadeswirl_seal; 10.
 */
uint8_t spadeswirl_seal_next(struct spadeswirl_session *session,
                             const uint8_t *table, size_t table_len,
                             const uint8_t *name, size_t name_len,
                             const uint8_t *aad, size_t aad_len,
                             const uint8_t *plain, size_t plain_len,
                             uint8_t *out, size_t out_len);

/*
 * Opens a record by the row of type SPADESWIRL_TYPE_DATA and its whole name:
 * fills the first *n bytes of the output and stores n; no byte is written before
 * the tag is found right. Numbers: 0; 1; 2 and 3 as for
 * spadeswirl_record_check; 4 for the record or the associated data; 5; 6; 7 for
 * a row of another use than its mode; 9.
 */
uint8_t spadeswirl_open(const uint8_t *table, size_t table_len,
                        const uint8_t *record, size_t record_len,
                        const uint8_t *aad, size_t aad_len,
                        uint8_t *out, size_t out_len, uint64_t *n);

/*
 * Verifies a record: the number that spadeswirl_open gives where there is room
 * for the plaintext, and none of the plaintext. Numbers: those of
 * spadeswirl_open but 5. By the same table, record and associated data, 0 is
 * given exactly when spadeswirl_open gives 0 into n bytes or more.
 */
uint8_t spadeswirl_verify(const uint8_t *table, size_t table_len,
                          const uint8_t *record, size_t record_len,
                          const uint8_t *aad, size_t aad_len);

/* Tests a record's layout, without table or key. Numbers: 0, 2, 3, 4. */
uint8_t spadeswirl_record_check(const uint8_t *record, size_t record_len);

/*
 * Tests a descriptor list, of a page or (label not 0) of a label, and stores
 * how many descriptors it has. It is strict: a reserved type is refused. Those
 * are 04h to BFh on a page, and 05h to BFh on a label. Numbers: 0; 2, for a
 * reserved type too. A list has no maximum.
 */
uint8_t spadeswirl_list_check(const uint8_t *list, size_t list_len,
                              uint8_t label, uint64_t *count);

/*
 * The same for a caller that says whether it is strict. With strict 0 reserved
 * types are passed over: it stores how many descriptors are not reserved. With
 * any other it is spadeswirl_list_check. Numbers: 0; 2, with strict not 0 for a
 * reserved type too.
 */
uint8_t spadeswirl_list_check_as(const uint8_t *list, size_t list_len,
                                 uint8_t label, uint8_t strict, uint64_t *count);

/*
 * Steps along a list from a place: stores where the next descriptor that is not
 * reserved starts and ends, or the place twice where none is left. The step
 * after it goes from that end. Numbers: 0; 2, with strict not 0 for a reserved
 * type that it meets too.
 */
uint8_t spadeswirl_list_step(const uint8_t *list, size_t list_len,
                             uint8_t label, uint8_t strict, uint64_t place,
                             uint64_t shown[2]);

/*
 * Tests a label, and stores how many of its descriptors are not reserved. Its
 * list begins after SPADESWIRL_LABEL_HEADER_BYTES, and is tested as by
 * spadeswirl_list_check_as with strict 0, since key managers put reserved types
 * into labels. Numbers: 0, 2, 4.
 */
uint8_t spadeswirl_label_check(const uint8_t *label, size_t label_len,
                               uint64_t *count);

/*
 * Reads a key page (SSC-3, Set Data Encryption) by itself, and stores its
 * fields. Its descriptor list is tested as by spadeswirl_list_check. Numbers: 0;
 * 2, for a reserved type too; 3; 4.
 */
uint8_t spadeswirl_page_read(const uint8_t *page, size_t page_len,
                             uint64_t fields[SPADESWIRL_FIELDS]);

/*
 * Loads the key of a page: its own, that of the row of a reference (of type
 * SPADESWIRL_TYPE_DATA), or a wrapped one, by the row of its KEK type and
 * identifier. Fills the first SPADESWIRL_KEY_BYTES of the output and stores the
 * fields. Numbers: 0; 1, for every format; 2, 3 and 4 as for
 * spadeswirl_page_read; 5; 6; 7 for a reference's row of another use than
 * ALGORITHM INDEX; 8; 9, where no key wraps to a wrapped key's bytes under that
 * row (docs/WHY_NINE.md).
 */
uint8_t spadeswirl_page_load(const uint8_t *table, size_t table_len,
                             const uint8_t *page, size_t page_len,
                             uint8_t *out, size_t out_len,
                             uint64_t fields[SPADESWIRL_FIELDS]);

/*
 * Stores where the parts of a page are: its descriptor list begins at
 * at[SPADESWIRL_PART_LIST] and goes to the page's end, and the KEY part is from
 * SPADESWIRL_PAGE_HEADER_BYTES to there. Of format SPADESWIRL_FORMAT_WRAPPED it
 * stores the KEK type, and where the identifier begins and ends; the wrapped key
 * follows it, to the KEY part's end. Of any other format these three are 0.
 * Numbers: those of spadeswirl_page_read.
 */
uint8_t spadeswirl_page_parts(const uint8_t *page, size_t page_len,
                              uint64_t at[SPADESWIRL_PARTS]);

/*
 * Writes a key page: of its first fields, as spadeswirl_page_read stores them,
 * of a KEY part as it stands, and of descriptors end to end. Fills the first *n
 * bytes of the output and stores n, SPADESWIRL_PAGE_HEADER_BYTES and as many as
 * the KEY part and the list have. It takes no table, and a wrapped key is
 * carried as it is. Numbers: 0; 2 for a KEY part or a list that breaks its
 * layout, or a reserved type; 3 for a field, a format or a KEK type that is not
 * permitted, or a field that is too wide for its bits; 4 for a page of more than
 * SPADESWIRL_PAGE_MAX, or a long reference or identifier; 5; 8 for a wrapped key
 * that has not SPADESWIRL_WRAPPED_BYTES. What this call writes
 * spadeswirl_page_read reads with 0, and it stores the same fields.
 */
uint8_t spadeswirl_page_write(const uint64_t fields[SPADESWIRL_FIELDS_CHOSEN],
                              const uint8_t *key_part, size_t key_part_len,
                              const uint8_t *list, size_t list_len,
                              uint8_t *out, size_t out_len, uint64_t *n);

/*
 * Wraps a key by the row of that KEK type and exactly that identifier, and
 * writes its page: what spadeswirl_page_write writes of the KEY part that is so
 * made. With the same table spadeswirl_page_load gives the key back. Numbers: 0;
 * 1; 2 for a key that has not SPADESWIRL_KEY_BYTES, an empty identifier, a list
 * that breaks its layout, or a reserved type; 3 for a KEY FORMAT other than
 * SPADESWIRL_FORMAT_WRAPPED, a type that no key-encrypting key has, and a field
 * as for spadeswirl_page_write; 4 for a page of more than SPADESWIRL_PAGE_MAX or
 * a long identifier; 5; 6.
 */
uint8_t spadeswirl_page_write_wrapped(const uint8_t *table, size_t table_len,
                                      const uint64_t fields[SPADESWIRL_FIELDS_CHOSEN],
                                      uint16_t type,
                                      const uint8_t *identifier, size_t identifier_len,
                                      const uint8_t *key, size_t key_len,
                                      const uint8_t *list, size_t list_len,
                                      uint8_t *out, size_t out_len, uint64_t *n);

#ifdef __cplusplus
}
#endif

#endif
