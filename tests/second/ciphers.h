/* AES-256, CCM, GCM and key wrap by OpenSSL's libcrypto, for inputs whose lengths are right. */
#ifndef CIPHERS_H
#define CIPHERS_H

#include <openssl/evp.h>
#include "words.h"

static inline void must(int done, const char *what)
{
    if (done <= 0)
        fail("libcrypto refuses", what);
}

/* One block, one way or the other. */
static inline void aes_block(int encrypt, const unsigned char *key, unsigned char *block)
{
    int n;
    EVP_CIPHER_CTX *c = EVP_CIPHER_CTX_new();
    must(EVP_CipherInit_ex(c, EVP_aes_256_ecb(), NULL, key, NULL, encrypt), "ecb");
    EVP_CIPHER_CTX_set_padding(c, 0);
    must(EVP_CipherUpdate(c, block, &n, block, 16), "ecb");
    EVP_CIPHER_CTX_free(c);
}

/* Fills out with as many bytes as text has, and tag with 16. */
static inline void aead_encrypt(int ccm, struct bytes key, struct bytes iv, struct bytes aad, struct bytes text,
                                unsigned char *out, unsigned char *tag)
{
    int n;
    EVP_CIPHER_CTX *c = EVP_CIPHER_CTX_new();
    must(EVP_EncryptInit_ex(c, ccm ? EVP_aes_256_ccm() : EVP_aes_256_gcm(), NULL, NULL, NULL), "init");
    must(EVP_CIPHER_CTX_ctrl(c, EVP_CTRL_AEAD_SET_IVLEN, (int)iv.len, NULL), "iv length");
    if (ccm)
        must(EVP_CIPHER_CTX_ctrl(c, EVP_CTRL_AEAD_SET_TAG, 16, NULL), "tag length");
    must(EVP_EncryptInit_ex(c, NULL, NULL, key.at, iv.at), "key");
    if (ccm)
        must(EVP_EncryptUpdate(c, NULL, &n, NULL, (int)text.len), "length");
    if (aad.len)
        must(EVP_EncryptUpdate(c, NULL, &n, aad.at, (int)aad.len), "aad");
    if (ccm || text.len)
        must(EVP_EncryptUpdate(c, out, &n, text.at, (int)text.len), "text");
    must(EVP_EncryptFinal_ex(c, out + text.len, &n), "final");
    must(EVP_CIPHER_CTX_ctrl(c, EVP_CTRL_AEAD_GET_TAG, 16, tag), "tag");
    EVP_CIPHER_CTX_free(c);
}

/* Whether the tag is right; the plaintext is then what encryption makes the ciphertext of, found by decrypting. */
static inline int aead_decrypt(int ccm, struct bytes key, struct bytes iv, struct bytes aad, struct bytes text,
                               const unsigned char *tag, unsigned char *out)
{
    int n, right;
    EVP_CIPHER_CTX *c = EVP_CIPHER_CTX_new();
    must(EVP_DecryptInit_ex(c, ccm ? EVP_aes_256_ccm() : EVP_aes_256_gcm(), NULL, NULL, NULL), "init");
    must(EVP_CIPHER_CTX_ctrl(c, EVP_CTRL_AEAD_SET_IVLEN, (int)iv.len, NULL), "iv length");
    must(EVP_CIPHER_CTX_ctrl(c, EVP_CTRL_AEAD_SET_TAG, 16, (void *)tag), "tag");
    must(EVP_DecryptInit_ex(c, NULL, NULL, key.at, iv.at), "key");
    if (ccm)
        must(EVP_DecryptUpdate(c, NULL, &n, NULL, (int)text.len), "length");
    if (aad.len)
        must(EVP_DecryptUpdate(c, NULL, &n, aad.at, (int)aad.len), "aad");
    right = 1;
    if (ccm || text.len)
        right = EVP_DecryptUpdate(c, out, &n, text.at, (int)text.len) > 0;
    if (!ccm)
        right = EVP_DecryptFinal_ex(c, out + text.len, &n) > 0;
    EVP_CIPHER_CTX_free(c);
    return right;
}

/* A key of 32 bytes into 40, and back where the start value is right, by a cipher for wrapping; its own start value where NULL is given. */
static inline int key_wrap_as(const EVP_CIPHER *cipher, int wrap, const unsigned char *kek, const unsigned char *start,
                              const unsigned char *in, unsigned char *out)
{
    int n, done;
    unsigned char room[64];
    EVP_CIPHER_CTX *c = EVP_CIPHER_CTX_new();
    EVP_CIPHER_CTX_set_flags(c, EVP_CIPHER_CTX_FLAG_WRAP_ALLOW);
    must(EVP_CipherInit_ex(c, cipher, NULL, kek, start, wrap), "wrap");
    done = EVP_CipherUpdate(c, room, &n, in, wrap ? 32 : 40) > 0 && n == (wrap ? 40 : 32);
    if (done)
        memcpy(out, room, (size_t)n);
    EVP_CIPHER_CTX_free(c);
    return done;
}

/* By AES Key Wrap with AES-256. */
static inline int key_wrap(int wrap, const unsigned char *kek, const unsigned char *in, unsigned char *out)
{
    return key_wrap_as(EVP_aes_256_wrap(), wrap, kek, NULL, in, out);
}

#endif
