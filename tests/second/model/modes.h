/*
 * The block cipher, CCM, GCM and key wrap as calls by themselves, read anew from document 01: their lengths and maxima,
 * and the order of the numbers.
 */
#ifndef MODES_H
#define MODES_H

#include "../bytes.h"
#include "../ciphers.h"

#define TEXT_MAX 1048576
#define DATA_MAX 4152

/* Key, block: so many times over, each output the next input. */
static inline int block(int encrypt, int times, struct bytes *w)
{
    if (w[0].len != 32 || w[1].len != 16)
        return 2;
    while (times-- > 0)
        aes_block(encrypt, w[0].at, w[1].at);
    return 0;
}

/* Key, IV, associated data, plaintext. */
static inline int mode_encrypt(int ccm, struct bytes *w, struct bytes out)
{
    unsigned char tag[16];
    if (w[0].len != 32 || w[1].len != 12)
        return 2;
    if (w[2].len > DATA_MAX || w[3].len > TEXT_MAX)
        return 4;
    if (out.len < w[3].len + 16)
        return 5;
    aead_encrypt(ccm, w[0], w[1], w[2], w[3], out.at, tag);
    memcpy(out.at + w[3].len, tag, 16);
    return 0;
}

/* Key, IV, associated data, ciphertext, tag. */
static inline int mode_decrypt(int ccm, struct bytes *w, struct bytes out)
{
    int right;
    struct bytes plain;
    if (w[0].len != 32 || w[1].len != 12 || w[4].len != 16)
        return 2;
    if (w[2].len > DATA_MAX || w[3].len > TEXT_MAX)
        return 4;
    if (out.len < w[3].len)
        return 5;
    plain = room_for(w[3].len + 16);
    right = aead_decrypt(ccm, w[0], w[1], w[2], w[3], w[4].at, plain.at);
    if (right)
        memcpy(out.at, plain.at, w[3].len);
    free(plain.at);
    return right ? 0 : 9;
}

/* Key-encrypting key, key; and back. */
static inline int wrap(struct bytes *w, struct bytes out)
{
    if (w[0].len != 32 || w[1].len != 32)
        return 2;
    if (out.len < 40)
        return 5;
    must(key_wrap(1, w[0].at, w[1].at, out.at), "wrap");
    return 0;
}

static inline int unwrap(struct bytes *w, struct bytes out)
{
    if (w[0].len != 32)
        return 2;
    if (out.len < 32)
        return 5;
    if (w[1].len != 40)
        return 8;
    return key_wrap(0, w[0].at, w[1].at, out.at) ? 0 : 9;
}

#endif
