/* BearSSL's constant-time code for 64-bit machines: AES by bit slices, GHASH by integer products. It works in place, and has no key wrap. */
#include <bearssl.h>
#include <string.h>
#include "peers.h"

static void run(int mode, struct message *m, int seal, uint8_t *tag)
{
    memcpy(m->out, m->text, m->len);
    if (mode == GCM) {
        br_aes_ct64_ctr_keys k;
        br_gcm_context c;
        br_aes_ct64_ctr_init(&k, m->key, 32);
        br_gcm_init(&c, &k.vtable, br_ghash_ctmul64);
        br_gcm_reset(&c, m->iv, 12);
        br_gcm_aad_inject(&c, m->aad, m->aad_len);
        br_gcm_flip(&c);
        br_gcm_run(&c, seal, m->out, m->len);
        br_gcm_get_tag(&c, tag);
    } else {
        br_aes_ct64_ctrcbc_keys k;
        br_ccm_context c;
        br_aes_ct64_ctrcbc_init(&k, m->key, 32);
        br_ccm_init(&c, &k.vtable);
        br_ccm_reset(&c, m->iv, 12, m->aad_len, m->len, 16);
        br_ccm_aad_inject(&c, m->aad, m->aad_len);
        br_ccm_flip(&c);
        br_ccm_run(&c, seal, m->out, m->len);
        br_ccm_get_tag(&c, tag);
    }
}

#include "by_tag.h"

const struct peer bearssl = { "BearSSL", seal, open, NULL };
