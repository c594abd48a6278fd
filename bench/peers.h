/*
 * A library under measure: seals and opens one message and, where it can, unwraps a key (AES Key Wrap). The key is set up
 * anew each time, as the unit does it for a record and for a wrapped key.
 */
#ifndef PEERS_H
#define PEERS_H

#include <stddef.h>
#include <stdint.h>

enum { GCM, CCM };

/* The bytes of a record before its ciphertext: header, a name of 32 bytes and the IV. All but the IV are associated data. */
#define FRONT 68
#define DATA 56

/*
 * Before out, and when opening before text, there are FRONT bytes of room, which only the unit uses: its record begins there.
 * It alone has a key table too, of so many rows: 2 or 64.
 */
struct message {
    const uint8_t *key, *iv, *aad;
    size_t aad_len;
    const uint8_t *text;
    size_t len;
    uint8_t *out, *tag;
    size_t rows;
};

struct peer {
    const char *name;
    /* fills out and tag; and the way back, 1 where the tag is right */
    void (*seal)(int mode, struct message *m);
    int (*open)(int mode, struct message *m);
    /* fills the 32 bytes of out from 40 wrapped ones, 1 where the start value is right; NULL in a library that has none */
    int (*unwrap)(const uint8_t *kek, const uint8_t *wrapped, uint8_t *out);
};

extern const struct peer unit, openssl, nettle, mbedtls, gcrypt, bearssl;

/* The bytes of a key page with a plain key, and of one with a wrapped key and an identifier of 32 bytes. No descriptors follow. */
#define PLAIN_PAGE 52
#define WRAPPED_PAGE 96

/*
 * What the unit alone has: tables with the records' key, and pages that carry a key, which are to be made first; the test of
 * a table of 2 rows or of 64; and the loading of either page, told by its length, into 32 bytes. 1 where it is done.
 */
void unit_ready(const uint8_t *key, const uint8_t *carried);
int unit_check(size_t rows);
int unit_load(size_t page_len, uint8_t *out);

#endif
