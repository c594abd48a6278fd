/* libgcrypt, kept from AES instructions and from vectors before its first use. */
#include <gcrypt.h>
#include <stdlib.h>
#include "peers.h"

static void ready(void)
{
    static int done;
    if (done)
        return;
    done = 1;
    gcry_control(GCRYCTL_DISABLE_HWF, "all", NULL);
    gcry_check_version(NULL);
    gcry_control(GCRYCTL_DISABLE_SECMEM, 0);
    gcry_control(GCRYCTL_INITIALIZATION_FINISHED, 0);
}

static gcry_cipher_hd_t keyed(int mode, const uint8_t *key)
{
    gcry_cipher_hd_t h;
    ready();
    if (gcry_cipher_open(&h, GCRY_CIPHER_AES256, mode, 0))
        abort();
    gcry_cipher_setkey(h, key, 32);
    return h;
}

static gcry_cipher_hd_t begin(int mode, struct message *m)
{
    gcry_cipher_hd_t h = keyed(mode == GCM ? GCRY_CIPHER_MODE_GCM : GCRY_CIPHER_MODE_CCM, m->key);
    gcry_cipher_setiv(h, m->iv, 12);
    if (mode == CCM) {
        uint64_t lengths[3] = { m->len, m->aad_len, 16 };
        gcry_cipher_ctl(h, GCRYCTL_SET_CCM_LENGTHS, lengths, sizeof lengths);
    }
    gcry_cipher_authenticate(h, m->aad, m->aad_len);
    return h;
}

static void seal(int mode, struct message *m)
{
    gcry_cipher_hd_t h = begin(mode, m);
    gcry_cipher_encrypt(h, m->out, m->len, m->text, m->len);
    gcry_cipher_gettag(h, m->tag, 16);
    gcry_cipher_close(h);
}

static int open(int mode, struct message *m)
{
    gcry_cipher_hd_t h = begin(mode, m);
    gcry_cipher_decrypt(h, m->out, m->len, m->text, m->len);
    int right = gcry_cipher_checktag(h, m->tag, 16) == 0;
    gcry_cipher_close(h);
    return right;
}

static int unwrap(const uint8_t *kek, const uint8_t *wrapped, uint8_t *out)
{
    gcry_cipher_hd_t h = keyed(GCRY_CIPHER_MODE_AESWRAP, kek);
    int right = gcry_cipher_decrypt(h, out, 32, wrapped, 40) == 0;
    gcry_cipher_close(h);
    return right;
}

const struct peer gcrypt = { "libgcrypt", seal, open, unwrap };
