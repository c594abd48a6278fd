#include <nettle/ccm.h>
#include <nettle/gcm.h>
#include <nettle/nist-keywrap.h>
#include <string.h>
#include "peers.h"

static void run(int mode, struct message *m, int seal, uint8_t *tag)
{
    if (mode == GCM) {
        struct gcm_aes256_ctx c;
        gcm_aes256_set_key(&c, m->key);
        gcm_aes256_set_iv(&c, 12, m->iv);
        gcm_aes256_update(&c, m->aad_len, m->aad);
        (seal ? gcm_aes256_encrypt : gcm_aes256_decrypt)(&c, m->len, m->out, m->text);
        gcm_aes256_digest(&c, 16, tag);
    } else {
        struct ccm_aes256_ctx c;
        ccm_aes256_set_key(&c, m->key);
        ccm_aes256_set_nonce(&c, 12, m->iv, m->aad_len, m->len, 16);
        ccm_aes256_update(&c, m->aad_len, m->aad);
        (seal ? ccm_aes256_encrypt : ccm_aes256_decrypt)(&c, m->len, m->out, m->text);
        ccm_aes256_digest(&c, 16, tag);
    }
}

#include "by_tag.h"

static int unwrap(const uint8_t *kek, const uint8_t *wrapped, uint8_t *out)
{
    static const uint8_t start[8] = { 0xa6, 0xa6, 0xa6, 0xa6, 0xa6, 0xa6, 0xa6, 0xa6 };
    struct aes256_ctx c;
    aes256_set_decrypt_key(&c, kek);
    return aes256_keyunwrap(&c, start, 32, out, wrapped);
}

const struct peer nettle = { "nettle", seal, open, unwrap };
