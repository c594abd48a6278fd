/* Debian builds mbedTLS without its key wrap (MBEDTLS_NIST_KW_C), so that it unwraps nothing here. */
#include <mbedtls/ccm.h>
#include <mbedtls/gcm.h>
#include "peers.h"

/* mbedTLS asks this function whether it may use AES instructions: it may not. */
int mbedtls_aesni_has_support(unsigned int what)
{
    (void)what;
    return 0;
}

static int run(int mode, struct message *m, int seal)
{
    int failed;
    if (mode == GCM) {
        mbedtls_gcm_context c;
        mbedtls_gcm_init(&c);
        mbedtls_gcm_setkey(&c, MBEDTLS_CIPHER_ID_AES, m->key, 256);
        failed = seal ? mbedtls_gcm_crypt_and_tag(&c, MBEDTLS_GCM_ENCRYPT, m->len, m->iv, 12, m->aad, m->aad_len, m->text, m->out, 16, m->tag)
                      : mbedtls_gcm_auth_decrypt(&c, m->len, m->iv, 12, m->aad, m->aad_len, m->tag, 16, m->text, m->out);
        mbedtls_gcm_free(&c);
    } else {
        mbedtls_ccm_context c;
        mbedtls_ccm_init(&c);
        mbedtls_ccm_setkey(&c, MBEDTLS_CIPHER_ID_AES, m->key, 256);
        failed = seal ? mbedtls_ccm_encrypt_and_tag(&c, m->len, m->iv, 12, m->aad, m->aad_len, m->text, m->out, m->tag, 16)
                      : mbedtls_ccm_auth_decrypt(&c, m->len, m->iv, 12, m->aad, m->aad_len, m->text, m->out, m->tag, 16);
        mbedtls_ccm_free(&c);
    }
    return failed == 0;
}

static void seal(int mode, struct message *m)
{
    run(mode, m, 1);
}

static int open(int mode, struct message *m)
{
    return run(mode, m, 0);
}

const struct peer mbedtls = { "mbedTLS", seal, open, NULL };
