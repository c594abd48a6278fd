/* A key is unwrapped by AES_unwrap_key, which has no AES instructions at all; the same by EVP takes longer. */
#define OPENSSL_SUPPRESS_DEPRECATED /* as that call is since 3.0 */
#include <openssl/aes.h>
#include <openssl/evp.h>
#include "peers.h"

static EVP_CIPHER_CTX *begin(int mode, struct message *m, int seal)
{
    int n;
    EVP_CIPHER_CTX *c = EVP_CIPHER_CTX_new();
    EVP_CipherInit_ex(c, mode == GCM ? EVP_aes_256_gcm() : EVP_aes_256_ccm(), NULL, NULL, NULL, seal);
    EVP_CIPHER_CTX_ctrl(c, EVP_CTRL_AEAD_SET_IVLEN, 12, NULL);
    if (mode == CCM || !seal)
        EVP_CIPHER_CTX_ctrl(c, EVP_CTRL_AEAD_SET_TAG, 16, seal ? NULL : m->tag);
    EVP_CipherInit_ex(c, NULL, NULL, m->key, m->iv, seal);
    if (mode == CCM)
        EVP_CipherUpdate(c, NULL, &n, NULL, (int)m->len);
    EVP_CipherUpdate(c, NULL, &n, m->aad, (int)m->aad_len);
    return c;
}

static void seal(int mode, struct message *m)
{
    int n;
    EVP_CIPHER_CTX *c = begin(mode, m, 1);
    EVP_CipherUpdate(c, m->out, &n, m->text, (int)m->len);
    EVP_CipherFinal_ex(c, m->out + m->len, &n);
    EVP_CIPHER_CTX_ctrl(c, EVP_CTRL_AEAD_GET_TAG, 16, m->tag);
    EVP_CIPHER_CTX_free(c);
}

static int open(int mode, struct message *m)
{
    int n, right;
    EVP_CIPHER_CTX *c = begin(mode, m, 0);
    right = EVP_CipherUpdate(c, m->out, &n, m->text, (int)m->len) > 0;
    if (mode == GCM)
        right = EVP_CipherFinal_ex(c, m->out + m->len, &n) > 0;
    EVP_CIPHER_CTX_free(c);
    return right;
}

static int unwrap(const uint8_t *kek, const uint8_t *wrapped, uint8_t *out)
{
    AES_KEY k;
    AES_set_decrypt_key(kek, 256, &k);
    return AES_unwrap_key(&k, NULL, out, wrapped, 40) == 32;
}

const struct peer openssl = { "OpenSSL", seal, open, unwrap };
